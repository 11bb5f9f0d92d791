#!/usr/bin/env python3
"""Tests the library for C that the gate or `make lib` made: each folder of examples/ runs through C and through the
package of python/; then come settings, buffers and windows at their edges, outputs of 200 MB, four threads at once,
each allocation failing in turn, and the examples and tests in C++ and Rust.

usage: library_test.py

All is skipped where there is no such library, or a source is newer; so is what there is no compiler for. The script
says so. CC and CXX name the compilers, `cc` and `c++` if not
set.
"""
import os
import pathlib
import shlex
import shutil
import subprocess
import sys
import tempfile

sys.path.insert(0, str(pathlib.Path(__file__).resolve().parents[1]))  # scripts/, for what groups share
from build.library import CC, CRATE, SONAME, TOP, lacking, make, newer_source, run

CXX = os.environ.get("CXX", "c++").split()
FLAGS = ["-O2", "-Wall", "-Wextra"]
# What the examples in each language print.
PRINTS = {"days": b"yes\nno\nstatus 1\n", "words": b"tea\nstatus 0\nmilk\nstatus 1\n"}
REFUSED = ["-Wl,--wrap=malloc", "-Wl,--wrap=realloc", "-Wl,--wrap=free"]


def why_skipped(proved):
    """Returns why nothing is tested, if it is so."""
    if lacking():
        return f"no {', '.join(lacking())}"
    if not proved.is_file():
        return "`make lib` has not made it"
    newer = newer_source(proved)
    return f"{newer.relative_to(TOP)} is newer: run `make lib`" if newer else ""


class Test:
    """The tests, with what they are made of."""

    def __init__(self, folder):
        self.folder, self.wrong = folder, False
        self.environment = {**os.environ, "LD_LIBRARY_PATH": str(folder)}

    def built(self, compiler, source, *words, flags=("-lfanquber",)):
        """Compiles a source, and returns the program."""
        program = self.folder / f"{source.stem}{source.suffix.replace('.', '_')}"
        run(*compiler, *FLAGS, f"-I{TOP / 'c'}", "-o", program, source, *words, f"-L{self.folder}", *flags)
        return program

    def ends(self, title, words, status=0, out=None, err=None, **others):
        """Runs a program, and notes whether it ends with the status and writes what is expected."""
        found = subprocess.run([str(it) for it in words], env=self.environment, capture_output=True, check=False,
                               **others)
        pairs = ((found.returncode, status), (found.stdout, out), (found.stderr, err))
        if any(want is not None and it != want for it, want in pairs):
            self.wrong = True
            print(f"library: {title}: status {found.returncode}, {found.stdout[-400:]!r}, {found.stderr[-400:]!r}")
        return found

    def examples(self, program):
        """Runs each folder of examples/ that has an input by the example in C. One of abnfx has none."""
        runs = [(it, it / "run.sh") for it in sorted((TOP / "examples").iterdir()) if it.is_dir()]
        lines = [(it, run.read_text().splitlines()[-1]) for it, run in runs]
        folders = [it for it, line in lines if "<" in line]
        for it in folders:
            words = shlex.split((it / "run.sh").read_text().splitlines()[-1].replace("<", " < "))
            at = words.index("<")
            reported, status = it / "reported.txt", it / "status"
            with open(it / words[at + 1], "rb") as given:
                self.ends(it.name, [program, *words[:at]], int(status.read_text()) if status.is_file() else 0,
                          (it / "printed.txt").read_bytes(), reported.read_bytes() if reported.is_file() else b"",
                          stdin=given, cwd=it)
        return f"{len(folders)} examples through C"

    def in_c(self):
        """Runs what is written in C."""
        uris = TOP / "examples/rfc3986/rfc3986.abnf"
        for name, out in PRINTS.items():
            self.ends(f"{name}.c", [self.built(CC, TOP / f"c/examples/{name}.c")], out=out)
        reported = [self.examples(self.built(CC, TOP / "c/examples/run.c"))]
        self.ends("edges", [self.built(CC, TOP / "c/tests/edges.c")], out=b"")
        self.ends("memory", [self.built(CC, TOP / "c/tests/memory.c")], out=b"")
        self.ends("threads", [self.built(CC, TOP / "c/tests/threads.c", "-pthread"), uris], out=b"")
        refused = self.built(CC, TOP / "c/tests/refused.c", *REFUSED, flags=(self.folder / "libfanquber.a",))
        reported += self.ends("refused", [refused, uris]).stdout.decode().splitlines()
        return reported

    def in_others(self):
        """Runs the examples and tests in C++ and Rust, and the tests in Python."""
        if shutil.which(CXX[0]):
            for name, out in PRINTS.items():
                self.ends(f"{name}.cpp", [self.built([*CXX, "-std=c++17"], TOP / f"c/examples/{name}.cpp")], out=out)
            self.ends("each.cpp", [self.built([*CXX, "-std=c++17"], TOP / "c/tests/each.cpp")], out=b"")
        else:
            print(f"library: C++: no compiler {CXX[0]}: skipped")
        if shutil.which("rustc"):
            for name, out in (*PRINTS.items(), ("each", b"")):
                program = self.folder / f"{name}_rs"
                run("rustc", "--edition", "2021", "-O", "-o", program, "-L", f"native={self.folder}",
                    TOP / f"rust/{name}.rs")
                self.ends(f"{name}.rs", [program], out=out)
        else:
            print("library: Rust: no compiler rustc: skipped")
        self.environment |= {"FANQUBER_LIBRARY": str(self.folder / SONAME), "PYTHONPATH": str(TOP / "python")}
        words = ["-m", "unittest", "discover", "-s", TOP / "python/tests", "-p", "test_fanquber.py"]
        found = self.ends("python", [sys.executable, "-B", *words])
        return found.stderr.decode().splitlines()[-3:-2]


def main():
    proved = TOP / "bin" / f"lib{CRATE}.a"
    why = why_skipped(proved)
    if why:
        print(f"library: {why}: skipped")
        return 0
    with tempfile.TemporaryDirectory() as made:
        folder = pathlib.Path(made)
        make(proved, folder)
        tests = Test(folder)
        for it in [*tests.in_c(), *tests.in_others()]:
            print(f"library: {it}")
    print(f"library: {'not ' if tests.wrong else ''}as it must be")
    return 1 if tests.wrong else 0


if __name__ == "__main__":
    sys.exit(main())
