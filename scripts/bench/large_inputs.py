#!/usr/bin/env python3
"""Judges many lines by the scripts of docs/LARGE_INPUTS.md on 1, 2 and 4 processors, prints how long that takes, and
compares the answers and the status with those of `abnfi` alone.

usage: large_inputs.py [MEGABYTES]

It needs bin/abnfi, GNU parallel, and room for the lines in a temporary folder; 1 megabyte if no number is given. The
lines are those of scripts/bench/judge/lines.py, again and again, with a line that is rejected at the end.
"""
import os
import pathlib
import re
import shutil
import subprocess
import sys
import tempfile
import time

TOP = pathlib.Path(__file__).resolve().parents[2]
PAGE = TOP / "docs/LARGE_INPUTS.md"
# A name of lines.py, and what the table calls the grammar and the lines.
INPUTS = (("date", "RFC 3339, `date-time`"), ("uri", "RFC 3986, `URI-reference`"))
PROCESSORS = (1, 2, 4)


def write_scripts(folder):
    """Writes the scripts of the page into the folder."""
    for name, text in re.findall(r"<!-- file: (\S+) -->\n```sh\n(.*?)```\n", PAGE.read_text(), re.S):
        (folder / name).write_text(text)


def write_lines(name, size, folder):
    """Writes a grammar, and so many bytes of lines."""
    words = [sys.executable, TOP / "scripts/bench/judge/lines.py", name]
    made = subprocess.run(words, check=True, capture_output=True)
    grammar, lines = made.stdout.split(b"\0", 1)
    (folder / "g.abnf").write_bytes(grammar)
    with open(folder / "lines", "wb") as out:
        for _ in range(size // len(lines) + 1):
            out.write(lines)
        out.write(b"\x01\n")


def seconds_of(words, processors, folder):
    """Runs a command on so many processors. Returns how long it takes, and its status; the answers go to a file."""
    path = f"{TOP / 'bin'}:{os.environ['PATH']}"
    environment = {**os.environ, "PATH": path, "JOBS": str(processors), "LINES": "lines"}
    words = ["taskset", "-c", ",".join(map(str, range(processors))), *words]
    start = time.monotonic()
    with open(folder / "lines", "rb") as given, open(folder / "answers", "wb") as out:
        # (each part reports the notes on the grammar)
        status = subprocess.run(words, cwd=folder, env=environment, stdin=given, stdout=out, stderr=subprocess.DEVNULL,
                                check=False).returncode
    return time.monotonic() - start, status


def is_wanted(folder):
    """Returns whether the answers are those of `abnfi` alone."""
    return subprocess.run(["cmp", "answers", "wanted"], cwd=folder, check=False).returncode == 0


def row_of(name, title, size, folder):
    """Returns a row of the table, and whether all answers and statuses are those of `abnfi` alone."""
    write_lines(name, size, folder)
    alone, status = seconds_of(["abnfi", "g.abnf"], 1, folder)
    (folder / "answers").rename(folder / "wanted")
    cells, is_right = [title, f"{alone:.1f} s"], status == 1
    for count in (it for it in PROCESSORS if it <= os.cpu_count()):
        taken, status = seconds_of(["sh", "stream.sh", "g.abnf"], count, folder)
        cells.append(f"{taken:.1f} s")
        is_right &= status == 0 and is_wanted(folder)
    _, status = seconds_of(["sh", "file.sh", "g.abnf"], min(4, os.cpu_count()), folder)
    return f"| {' | '.join(cells)} |", is_right and status == 1 and is_wanted(folder)


def main(words):
    if not shutil.which("parallel"):
        print("large_inputs.py: GNU parallel is not installed: skipped")
        return 0
    size, is_right = int(words[0] if words else 1) * 1_000_000, True
    with tempfile.TemporaryDirectory() as folder:
        write_scripts(pathlib.Path(folder))
        for name, title in INPUTS:
            row, is_row_right = row_of(name, title, size, pathlib.Path(folder))
            print(row, flush=True)
            is_right &= is_row_right
    print(f"large inputs: {'all answers and statuses are those of one run' if is_right else 'WRONG'}")
    return 0 if is_right else 1


if __name__ == "__main__":
    sys.exit(main(sys.argv[1:]))
