#!/usr/bin/env python3
"""Makes the library for C out of what was proved.

usage: library.py [--over-ci]

It takes bin/libfanquber_c.a, which prove.py puts there, and makes of it in bin/ the static library libfanquber.a, the
shared object libfanquber.so.2 with the link libfanquber.so, and fanquber.pc, which pkg-config reads. Both libraries
give out the calls of c/fanquber.h and nothing else; the script fails otherwise. It needs a C compiler and objcopy
(Debian: binutils). CC names the compiler, `cc` if not set, and RT the command, `rt` if not set.

With --over-ci it makes bin/libfanquber_c.a too, over the libraries that `rt ci` left in crates/*/out, unless it is
newer than all sources. Where a checkout has libraries of its own there, or that fails, prove.py makes it.

`rt ci` keeps the verdict on a static library and no archive. So make_archive checks `fanquber_c` once more: its exports
alone, since each calls a function of `capi`, which is proved once.
"""
import os
import pathlib
import shutil
import subprocess
import sys

sys.path.insert(0, str(pathlib.Path(__file__).resolve().parents[1]))  # scripts/, for what groups share
from crates import below, listed, uses

TOP = pathlib.Path(__file__).resolve().parents[2]
CRATE = "fanquber_c"
SONAME = "libfanquber.so.2"
VERSION = "2.2"
RT = os.environ.get("RT", "rt").split()
CC = os.environ.get("CC", "cc").split()


def run(*words, **others):
    """Runs a command, or ends the script if it fails."""
    try:
        return subprocess.run([str(it) for it in words], check=True, **others)
    except (OSError, subprocess.CalledProcessError) as fault:
        sys.exit(f"library.py: {fault}")


def kit():
    """Returns the folder of the toolchain."""
    return pathlib.Path(run(*RT, "doc", stdout=subprocess.PIPE, text=True).stdout.strip()).parent


def lacking():
    """Returns the programs that the library cannot be made without and that are not here."""
    return [it for it in (CC[0], "ar", "nm", "objcopy") if not shutil.which(it)]


def newer_source(proved):
    """Returns a source of the library that is newer than the archive, if there is one."""
    crates = {CRATE, *below(TOP, CRATE)}
    sources = (it for crate in crates for it in (TOP / "crates" / crate / "src").rglob("*.rt"))
    return next((it for it in sources if it.stat().st_mtime > proved.stat().st_mtime), None)


def build_words(tree, crate, to):
    """Returns the command that checks a static library over the libraries of a tree, and writes its archive."""
    page = kit()
    named = listed(tree)[crate].partition(":")[2].split()
    ours = {it: f"../{it}/out/rlib/{it}.rlib" for it in uses(tree)[crate]}
    externs = [f"{it}={ours.get(it, page / 'rlibs' / f'{it}.rlib')}" for it in ("std", *named)]
    found = [page / "rlibs", *(f"../{it}/out/rlib" for it in sorted(below(tree, crate)))]
    return [
        page / "bin/rattle", "build", "--crate-name", crate, "src/lib.rt", "--crate-type", "staticlib",
        *(word for it in externs for word in ("--extern", it)),
        *(word for it in found for word in ("-L", f"dependency={it}")),
        "--antt-project", page / "rattle/logic/antt-project.json", "--logic-built", page / "logic_built",
        "--toolchain", page / "toolchain", "--backend", "llvm", "-o", to
    ]


def make_archive(tree, crate, to):
    """Checks a static library and compiles its archive. The tree has crates.txt, the crate's sources, and the libraries
    that `rt ci` built, in crates/*/out. If it fails, shows all that was said and raises CalledProcessError."""
    words = [str(it) for it in build_words(tree, crate, to)]
    how = {"stdin": subprocess.DEVNULL, "stdout": subprocess.PIPE, "stderr": subprocess.STDOUT, "text": True}
    found = subprocess.run(words, cwd=tree / "crates" / crate, check=False, **how)
    if found.returncode:
        print(found.stdout, flush=True)
    found.check_returncode()


def prove(proved):
    """Makes the proved archive out of what `rt ci` left, or has prove.py make it."""
    if proved.is_file() and not newer_source(proved):
        return
    made = [TOP / "crates" / it / "out/rlib" for it in below(TOP, CRATE)]
    # `rt ci` writes no stamp; `rt check` writes one, and its libraries may be older than their sources
    if all((it / f"{it.parts[-3]}.rlib").is_dir() and not (it / "stamp").is_file() for it in made):
        proved.parent.mkdir(exist_ok=True)
        try:
            make_archive(TOP, CRATE, proved)
            return
        except (OSError, subprocess.CalledProcessError) as fault:
            print(f"library.py: {fault}; prove.py makes {CRATE}", flush=True)
            proved.unlink(missing_ok=True)
    run(sys.executable, "-B", TOP / "scripts/build/prove.py", CRATE)


def names():
    """Returns the names of the calls, as the map of the shared object has them."""
    text = (TOP / "c/fanquber.map").read_text()
    return [it.strip(" ;") for it in text.splitlines() if it.strip().startswith("fanquber_")]


def given_out(words, library):
    """Returns the names that a library defines for others, as `nm` with these words lists them."""
    lines = run("nm", *words, "--defined-only", library, stdout=subprocess.PIPE, text=True).stdout.splitlines()
    rows = [it.split() for it in lines]
    return sorted(it[2].partition("@")[0] for it in rows if len(it) == 3 and it[1] != "A")


def make(proved, folder):
    """Makes both libraries of the proved one, in a folder."""
    folder.mkdir(exist_ok=True)
    whole, static, shared = folder / "fanquber.o", folder / "libfanquber.a", folder / SONAME
    allocator = kit() / "c/liblibc_c.a"
    run(*CC, "-r", "-nostdlib", "-o", whole, "-Wl,--whole-archive", proved, "-Wl,--no-whole-archive", allocator)
    run("objcopy", *(f"--keep-global-symbol={it}" for it in names()), whole)
    static.unlink(missing_ok=True)
    run("ar", "rcsD", static, whole)
    run(*CC, "-shared", "-o", shared, f"-Wl,-soname,{SONAME}", f"-Wl,--version-script={TOP / 'c/fanquber.map'}",
        "-Wl,--no-undefined", "-Wl,-z,relro,-z,now", whole)
    whole.unlink()
    link = folder / "libfanquber.so"
    link.unlink(missing_ok=True)
    link.symlink_to(SONAME)
    text = (TOP / "c/fanquber.pc.in").read_text()
    (folder / "fanquber.pc").write_text(text.replace("@VERSION@", VERSION))
    for words, library in ((["-g"], static), (["-D"], shared)):
        found = given_out(words, library)
        if found != names():
            sys.exit(f"library.py: {library.name} gives out {found}, and is to give out {names()}")


def main(words):
    proved = TOP / "bin" / f"lib{CRATE}.a"
    if words == ["--over-ci"]:
        prove(proved)
    make(proved, TOP / "bin")


if __name__ == "__main__":
    main(sys.argv[1:])
