#!/usr/bin/env python3
"""The gate: the rules of names, the names in the documents and their style, the form of the edits that must fail, the
pages of the libraries and the completions; if these are green `rt ci`; if that is green too the programs as users run
them: those that `rt ci` built are put into bin/, and run on the folders of examples/, the examples of the manual pages
and the rows of gate/runs/, on random cases against slow answers, by item sets alone, on grammars of a megabyte and
lines of 16 MB that are made to cost much, and with failing allocations, writes, reads and stack; then what shells
complete, what is packed, answers that come line by line, the library for C, which is made over what `rt ci` proved, and
the package for Python are tested.

usage: gate.py

Prints the last line of `rt ci` last. The status is 0 if all of it is green. RT names the command, `rt` if not set. What
there is no C compiler for is skipped, and so are tests of Python without pytest: faults.py, library_test.py and
python_test.py say so, and so does fuzz.py where clang has no libFuzzer.
"""
import os
import pathlib
import shutil
import subprocess
import sys

sys.path.insert(0, str(pathlib.Path(__file__).resolve().parents[1]))  # scripts/, for what groups share
from build.library import lacking

PROGRAMS = ("pegi", "abnfi", "abnfx", "abnfd", "abnfg")
# What is looked at before anything is proved, and what the programs are run by.
BEFORE = (
    ("gate/names.py",), ("gate/doc_names.py",), ("gate/style.py",), ("gate/edit_index.py", "-q"),
    ("docs/pages.py", "--check"), ("gate/calls.py",), ("docs/private_definitions.py", "--check"),
    ("build/completions.py", "--check"),
)
AFTER = (
    ("docs/run_examples.sh",), ("docs/man_examples.py",), ("gate/run_rows.py",),
    ("oracles/random_cases.py", "-n", "5000", "-u", "-w", "-z", "-k", "-p", "-q", "-b", "-1", "-e", "-d", "-x"),
    ("oracles/both_judges.py",),
    ("oracles/dense_lines.py",), ("oracles/slow_abnfx.py",), ("oracles/random_texts.py", "-n", "300"),
    ("oracles/random_pairs.py", "-n", "300"), ("oracles/random_lines.py", "-n", "300"),
    ("oracles/random_misses.py", "-n", "300"), ("oracles/listed_lines.py",),
    ("bench/hostile_grammars.py",), ("gate/faults.py",), ("gate/completions_test.py",), ("gate/package_test.py",),
    ("gate/line_buffered_test.py",), ("gate/quickfix_test.py",), ("gate/library_test.py",), ("oracles/fuzz.py",),
    ("gate/python_test.py",)
)
TOP = pathlib.Path(__file__).resolve().parents[2]
RT = os.environ.get("RT", "rt").split()


def script(name, *words):
    """Runs one of the scripts, and returns whether it ended well."""
    by = ["sh"] if name.endswith(".sh") else [sys.executable, "-B"]
    return subprocess.run([*by, TOP / "scripts" / name, *words], cwd=TOP, check=False).returncode == 0


def ci():
    """Runs `rt ci`, shows what it prints, and returns its status and its last line, which is not shown yet."""
    last = ""
    # `rt ci` stops at a link. library.py makes it again.
    (TOP / "bin/libfanquber.so").unlink(missing_ok=True)
    try:
        run = subprocess.Popen(
            [*RT, "ci"], cwd=TOP, stdout=subprocess.PIPE, stderr=subprocess.STDOUT, text=True, errors="replace"
        )
    except OSError as fault:
        return 1, f"{RT[0]}: {fault}"
    for line in run.stdout:
        if last:
            print(last, flush=True)
        last = line.rstrip("\n")
    return run.wait(), last


def put_programs():
    """Puts the programs that `rt ci` built into bin/, or else builds them. Returns whether both are there."""
    built = [TOP / "crates" / it / "out" / it for it in PROGRAMS]
    if not all(it.is_file() for it in built):
        return script("build/prove.py", *PROGRAMS)
    (TOP / "bin").mkdir(exist_ok=True)
    for it in built:
        shutil.copy(it, TOP / "bin" / it.name)
    return True


def put_library():
    """Makes the library for C in bin/, where there is a C compiler. Returns whether that went well."""
    return bool(lacking()) or script("build/library.py", "--over-ci")


def main():
    if not all([script(*it) for it in BEFORE]):
        print("gate.py: a script says above what is wrong; nothing was proved")
        return 1
    status, last = ci()
    green = status == 0
    if green:
        print(last, flush=True)
        green = put_programs() and put_library() and all([script(*it) for it in AFTER])
    print(last, flush=True)
    return 0 if green else status or 1


sys.exit(main())
