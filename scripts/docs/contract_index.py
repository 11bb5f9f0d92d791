#!/usr/bin/env python3
"""Prints, for each public function of the libraries, where its contract, the definitions that it cites, its proof and
the lemmas that serve it stand.

usage: contract_index.py [WORD ..]

A word is a crate or a function; with none all are printed. A line is a file, and the names in it that the contract
cites. The lemma files are those whose second line names the function after `-- Serves:`.
"""
import pathlib
import re
import sys

sys.path.insert(0, str(pathlib.Path(__file__).resolve().parents[1]))  # scripts/, for what groups share
from crates import in_order

TOP = pathlib.Path(__file__).resolve().parents[2]
FUNCTION = re.compile(r'^( *)pub (?:extern "C" )?fn (\w+)', re.M)
OWNER = re.compile(r"^(?:impl|pub trait)(?:<.*?>)? (?:(?:\w+)(?:<.*?>)? for )?(\w+)", re.M)
METHOD = re.compile(r"^( +)fn (\w+)", re.M)
CLAUSE = re.compile(r"(?:requires|ensures)\*?(?: \w+)? $|ghost \w+: $")
IMPORT = re.compile(r"^ghost use Rattle\.(\w+)\.specs\.([\w.]+)\.\{(.*?)\};", re.M | re.S)


def head_end(text, start):
    """Returns where the head of a function ends that begins there: before its body, or before the `;` that ends it."""
    depth = 0
    for place in range(start, len(text)):
        letter = text[place]
        if depth == 0 and (letter == ";" or letter == "{" and not CLAUSE.search(text, start, place)):
            return place
        depth += (letter in "([{") - (letter in ")]}")
    return len(text)


def functions(text):
    """Returns the name, the line and the contract of each public function, and of each method of a public trait."""
    found = []
    for line in FUNCTION.finditer(text):
        found.append((line.group(2), line.start()))
    for trait in re.finditer(r"^pub trait .*?^}", text, re.M | re.S):
        found += [(it.group(2), trait.start() + it.start()) for it in METHOD.finditer(trait.group())]
    for name, start in sorted(found, key=lambda it: it[1]):
        yield name, text.count("\n", 0, start) + 1, text[start:head_end(text, start)].rstrip()


def owner_of(text, line):
    """Returns the type of the impl block or trait in which the line stands; none if it stands in no block."""
    owner = None
    for number, row in enumerate(text.split("\n")[:line], 1):
        if row.startswith("}"):
            owner = None
        found = OWNER.match(row)
        if found:
            owner = found.group(1)
    return owner


def definitions(text, head):
    """Returns the files of specs/ whose names the head cites, with these names, in the order of the imports."""
    words = set(re.findall(r"[\w-]+", head))
    for crate, module, names in IMPORT.findall(text):
        path = TOP / "crates" / crate / "specs" / (module.replace(".", "/") + ".antt")
        cited = [it for it in re.split(r",\s*", names.strip()) if it in words]
        if cited and path.is_file():
            yield path, cited


def served():
    """Returns the lemma files by the function that their second line names."""
    files = {}
    for path in sorted(TOP.glob("crates/*/proofs/**/*.antt")):
        rows = path.read_text().split("\n", 2)
        if len(rows) > 1 and rows[1].startswith("-- Serves:"):
            for name in re.findall(r"\w+", rows[1][len("-- Serves:"):]):
                files.setdefault(name, []).append(path)
    return files


def print_crate(crate, lemmas, words):
    """Prints the public functions of the crate that the words ask for."""
    for path in sorted((TOP / "crates" / crate / "src").rglob("*.rt")):
        text = path.read_text()
        for name, line, head in functions(text):
            if words and crate not in words and name not in words:
                continue
            owner = owner_of(text, line)
            print(f"\n{crate}: {owner + '::' if owner else ''}{name}")
            print(f"  contract     {path.relative_to(TOP)}:{line}")
            for file, cited in definitions(text, head):
                print(f"  definitions  {file.relative_to(TOP)}: {', '.join(cited)}")
            module = path.relative_to(TOP / "crates" / crate / "src").with_suffix("")
            proof = TOP / "crates" / crate / "proofs" / module / name
            if proof.is_dir():
                print(f"  proof        {proof.relative_to(TOP)}/")
            for file in lemmas.get(name, []):
                if file.is_relative_to(TOP / "crates" / crate):
                    print(f"  lemmas       {file.relative_to(TOP)}")


def main(*words):
    lemmas = served()
    for crate in in_order(TOP):
        if (TOP / "crates" / crate / "specs").is_dir():
            print_crate(crate, lemmas, words)
    return 0


if __name__ == "__main__":
    sys.exit(main(*sys.argv[1:]))
