#!/usr/bin/env python3
"""Tests what reads the findings of `-f gcc`: `:make` of vim must fill its quickfix list with them, and jump to the
first; the problem matcher of editors/ci must find each error and warning.

usage: quickfix_test.py

It needs bin/pegi and bin/abnfi. Without vim its part is skipped, and the script says so.
"""
import json
import os
import pathlib
import re
import shutil
import subprocess
import sys
import tempfile

TOP = pathlib.Path(__file__).resolve().parents[2]
SECONDS = 60
# A compiler, a grammar, and its findings: line, column, severity and text. The cursor must stand at the first.
CASES = (
    ("abnfi", 'uri = scheme ":" / path\nscheme = "a"\nSCHEME = "b"\n', (
        (2, 1, "error", "rule 'scheme' redefined [redefined]"),
        (3, 1, "note", "'SCHEME' is defined again [redefined]"),
        (1, 20, "error", "rule 'path' used but not defined, reached by 'uri' > 'path' [undefined]"))),
    ("pegi", "S <- A\n  B <- 'b'\nA <- 'a'\n", ((2, 3, "warning", "rule 'B' defined but not used [unused]"),)),
)
LIST = "map(getqflist(), {_, q -> q.lnum . ',' . q.col . ',' . q.type . ',' . q.text})"


def run(words, folder):
    """Runs a command in a folder, with the programs of bin/, and returns what it writes on standard error."""
    environment = os.environ | {"PATH": f"{TOP}/bin:{os.environ['PATH']}"}
    return subprocess.run(words, cwd=folder, env=environment, timeout=SECONDS, check=False, text=True,
                          stdin=subprocess.DEVNULL, stdout=subprocess.DEVNULL, stderr=subprocess.PIPE).stderr


def listed(program, folder):
    """Returns the lines of the quickfix list of vim for the grammar of a folder, and then the cursor's position."""
    words = ["set nocompatible", f"set runtimepath^={TOP}/editors/vim", "edit a\\ grammar", f"compiler {program}",
             "silent make", f"call writefile({LIST} + [line('.') . ',' . col('.')], 'list')", "qa!"]
    run(["vim", "-u", "NONE", "-es", "--not-a-term", *(it for word in words for it in ("-c", word))], folder)
    return (folder / "list").read_text().splitlines() if (folder / "list").exists() else []


def marked(program, folder):
    """Returns what the problem matcher marks in what the script of editors/ci writes for the grammar of a folder."""
    matcher = json.loads((TOP / "editors/ci/problem-matcher.json").read_text())["problemMatcher"][0]["pattern"][0]
    keys = [matcher[it] for it in ("file", "line", "column", "severity", "message", "code")]
    found = (re.search(matcher["regexp"], it) for it in run(
        [TOP / "editors/ci/check_grammars.sh", program, "a grammar"], folder).splitlines())
    return [it.group(*keys) for it in found if it]


def readings(program, grammar, wanted):
    """Yields each reader of findings, with what it finds in a grammar and what it must find."""
    with tempfile.TemporaryDirectory() as folder:
        folder = pathlib.Path(folder)
        (folder / "a grammar").write_text(grammar)
        marks = [("a grammar", str(line), str(column), severity, *text.removesuffix("]").split(" ["))
                 for line, column, severity, text in wanted if severity != "note"]
        yield "the problem matcher", marked(program, folder), marks
        if shutil.which("vim"):
            rows = [f"{line},{column},{severity[0]},{text}" for line, column, severity, text in wanted]
            yield "vim", listed(program, folder), rows + [f"{wanted[0][0]},{wanted[0][1]}"]


def main():
    if not shutil.which("vim"):
        print("quickfix_test: no vim: its part is skipped")
    wrong = 0
    for program, grammar, findings in CASES:
        if not (TOP / "bin" / program).exists():
            print(f"quickfix_test: no bin/{program}")
            wrong += 1
            continue
        for reader, found, must in readings(program, grammar, findings):
            if found != must:
                wrong += 1
                print(f"quickfix_test: {program}, {reader}: {found}, not {must}")
    print(f"quickfix_test: {len(CASES)} grammars: {wrong} wrong")
    return 1 if wrong else 0


if __name__ == "__main__":
    sys.exit(main())
