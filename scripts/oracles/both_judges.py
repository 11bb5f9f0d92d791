#!/usr/bin/env python3
"""Runs the examples of abnfi by Earley's item sets alone, where the examples themselves are run by the automaton first.

usage: both_judges.py

The judged rule of a copy gets one alternative more, that no line of the example begins: a byte 1, and a counted
repetition of an option, for which a grammar has no automaton. So the answers, the messages and the status must be
those of the example. Prints what differs, and then the status is 1. It needs bin/abnfi.
"""
import os
import pathlib
import re
import shutil
import subprocess
import sys
import tempfile

TOP = pathlib.Path(__file__).resolve().parents[2]
# No automaton counts how often something nullable is repeated.
UNSERVED = '%x01 2*3["a"]'


def read(file, otherwise):
    return file.read_bytes() if file.is_file() else otherwise


def judged_rule(words, grammar):
    """Returns the name of the judged rule: that of `-s`, or else the first of the file."""
    named = re.search(r" -s (\S+)", words)
    return named[1] if named else re.search(r"(?m)^ *([A-Za-z][\w-]*) *=", grammar)[1]


def is_alike(example, copy):
    """Runs an example by item sets, in a copy of its folder. Returns whether it ends as it must."""
    shutil.copytree(example, copy)
    file = next(copy.glob("*.abnf"))
    grammar = file.read_text()
    rule = judged_rule((example / "run.sh").read_text(), grammar)
    file.write_text(f"{grammar}{rule} =/ {UNSERVED}\n")
    path = f"{TOP / 'bin'}:{os.environ['PATH']}"
    run = subprocess.run(["sh", "run.sh"], cwd=copy, env={**os.environ, "PATH": path}, capture_output=True, check=False)
    texts = (read(example / "printed.txt", b""), read(example / "reported.txt", b""))
    return (run.stdout, run.stderr, run.returncode) == (*texts, int(read(example / "status", b"0")))


def main():
    folders = sorted({it.parent for it in (TOP / "examples").glob("*/*.abnf")})
    examples = [it for it in folders if (it / "run.sh").read_text().startswith("abnfi ")]
    with tempfile.TemporaryDirectory(prefix="judges-") as folder:
        wrong = [it.name for it in examples if not is_alike(it, pathlib.Path(folder) / it.name)]
    for name in wrong:
        print(f"{name}: item sets alone answer otherwise")
    print(f"{len(examples)} examples by item sets alone, {len(wrong)} of them wrong")
    return 1 if wrong else 0


sys.exit(main())
