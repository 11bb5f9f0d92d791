#!/usr/bin/env python3
"""Measures how long programs take to judge lines by a grammar, beside grep and ripgrep where an expression
says the rule.

usage: line_bench.py [PROGRAM ..]

The programs are builds of abnfi; bin/abnfi if none is given. Prints for each input and program the processor time a
byte in nanoseconds, the least of three runs, and the greatest memory in MB. The lines are those of
judge/lines.py, as often as a run takes a fifth of a second or reads 32 MB; so starting, reading and cutting of
lines are part of it.
"""
import os
import pathlib
import shutil
import subprocess
import sys
import tempfile

HERE = pathlib.Path(__file__).resolve().parent
DATE = "[0-9]{4}-[0-9]{2}-[0-9]{2}[Tt][0-9]{2}:[0-9]{2}:[0-9]{2}([.][0-9]+)?([Zz]|[+-][0-9]{2}:[0-9]{2})"
# Names of lines.py, each with how many letters a line has in place of its own, options, and an expression of its rule.
ROWS = [
    ("date", None, "", DATE), ("uri", None, "", None), ("alpha", None, "", "[A-Za-z]+"), ("right", 1000, "", "[Aa]+"),
    ("right", 10000, "", "[Aa]+"), ("short", None, "", "[A-Za-z]+"), ("kw", None, "", None), ("json", None, "", None),
    ("nested", None, "", None), ("ss50", None, "", "[Aa]+"),
    ("left", 1000, "", "[Aa]+"), ("date", None, "-w", None), ("uri", None, "-w", None), ("date", None, "-u utf8", None),
    ("uri", None, "-u utf8", None), ("right", 10000, "-u utf8 -w", None),
]
GREPS = [["grep", "-cixE", "-f"]] + [["rg", "--no-config", "-cixaN", "--no-unicode", "-f"]] * bool(shutil.which("rg"))
ENOUGH, MOST = 0.2, 32_000_000


def given(name, letters):
    """Returns a grammar, and lines to judge by it."""
    said = subprocess.check_output([sys.executable, HERE / "judge/lines.py", name])
    grammar, _, lines = said.partition(b"\0")
    return grammar, lines if letters is None else b"a" * letters + b"\n"


def run(words, file):
    """Runs a program on a file. Returns its processor time and its greatest memory in MB."""
    with open(file, "rb") as source, open(file.with_suffix(".out"), "wb") as out:
        child = subprocess.Popen(words, stdin=source, stdout=out, stderr=out, env={**os.environ, "LC_ALL": "C"})
        _, status, used = os.wait4(child.pid, 0)
    child.returncode = status
    return used.ru_utime + used.ru_stime, used.ru_maxrss / 1000


def write(lines, count, file):
    """Writes the lines so many times; piece by piece, since what is held here would count as memory of the program."""
    with open(file, "wb") as out:
        for _ in range(count):
            out.write(lines)


def measure(words, lines, file, least=1):
    """Returns the nanoseconds a byte and the MB of a program, on at least so many bytes."""
    count = -(-least // len(lines))
    while True:
        size = len(lines) * count
        write(lines, count, file)
        took, memory = run(words, file)
        if took >= ENOUGH or size * 2 > MOST:
            break
        count *= 4 if took < ENOUGH / 8 else 2
    took = min([took] + [run(words, file)[0] for _ in range(2)])
    return took / size * 1e9, memory


def main(programs):
    programs = programs or [str(HERE.parents[1] / "bin" / "abnfi")]
    with tempfile.TemporaryDirectory(prefix="line_bench-") as folder:
        folder = pathlib.Path(folder)
        for name, letters, options, said in ROWS:
            grammar, lines = given(name, letters)
            (folder / "grammar").write_bytes(grammar)
            reported = [measure([it, *options.split(), folder / "grammar"], lines, folder / "lines") for it in programs]
            if said:
                (folder / "words").write_text(said + "\n")
                for words in GREPS:
                    reported.append(measure([*words, folder / "words"], lines, folder / "lines", 1_000_000))
            row = " | ".join(f"{ns:,.1f} | {mb:,.0f}" for ns, mb in reported)
            what = ", ".join(filter(None, (name, letters and f"{letters:,} letters", options)))
            print(f"| {what} | {row} |", flush=True)


main(sys.argv[1:])
