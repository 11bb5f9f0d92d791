"""The crates of crates.txt, for the other scripts."""
import pathlib
import re


def listed(top):
    """Returns the lines of crates.txt without comments, by the crate's name."""
    lines = (it.partition("#")[0] for it in (pathlib.Path(top) / "crates.txt").read_text().splitlines())
    return {it.partition(":")[0].split()[0]: it for it in lines if it.strip()}


def lines_of(top, crates):
    """Returns the lines of crates.txt for these crates."""
    return [line for crate, line in listed(top).items() if crate in crates]


def uses(top):
    """Returns the crates, each with the crates of the repository that it uses."""
    named = {crate: line.partition(":")[2].split() for crate, line in listed(top).items()}
    return {crate: [it for it in below if it in named] for crate, below in named.items()}


def is_static(top, crate):
    """Returns whether a crate is a static library, which C is linked with."""
    return "staticlib" in listed(top)[crate].partition(":")[0].split()


def in_order(top):
    """Returns the crates' names, each after those that it uses."""
    left, order = uses(top), []
    while left:
        ready = [crate for crate, below in left.items() if all(it in order for it in below)]
        if not ready:
            raise SystemExit(f"crates.txt: these use one another: {' '.join(left)}")
        order += ready
        for crate in ready:
            del left[crate]
    return order


def below(top, crate):
    """Returns the crates that a crate stands on."""
    direct = uses(top)
    found, left = set(), [crate]
    while left:
        for it in direct[left.pop()]:
            if it not in found:
                found.add(it)
                left.append(it)
    return found


def longest_chain(top, crate):
    """Returns the longest chain of uses from a crate down, with the crate itself."""
    direct, chains = uses(top), {}
    for it in in_order(top):
        chains[it] = [it, *max((chains[low] for low in direct[it]), key=len, default=[])]
    return chains[crate]


def parts(top):
    """Returns the crates of each part of crates.txt, by the comment before them; those before the first by none."""
    found, part = {}, None
    for row in (pathlib.Path(top) / "crates.txt").read_text().splitlines():
        if re.fullmatch(r"# [\w ]+", row):
            part = row[2:]
        elif row and not row.startswith("#"):
            found.setdefault(part, []).append(row.partition(":")[0].split()[0])
    return found
