#!/usr/bin/env python3
"""Measures how long programs take to match by a grammar, beside LPeg and peg(1), and compares what they print.

usage: run.py [-n ROUNDS] [PROGRAM ..]

The programs are builds of pegi; bin/pegi if none is given. Prints for each row of rows.py and each program the
processor time a byte in nanoseconds, the least of so many rounds (5 if not given), on an input of one megabyte; the
programs run in turn. After that stands the memory of one run more in MB, by time(1). LPeg is Lua's (Debian: lua5.3
and lua-lpeg); peg(1) is Debian's peg, whose parser is compiled by gcc -O2. What is not installed is left out.
"""
import os
import pathlib
import shutil
import subprocess
import sys
import tempfile

from rows import LUA_HEAD, ROWS

HERE = pathlib.Path(__file__).resolve().parent
SIZE = 1_000_000
# The program round what peg(1) makes of a grammar: the input is read in blocks, and units are matched until one fails.
C_MAIN = """#include <stdio.h>
#define YY_INPUT(buf, result, max_size) ((result) = fread((buf), 1, (max_size), stdin))
#include "it.c"
int main(void) { while (yyparse()) {} return 0; }
"""


def run(words, folder):
    """Runs a program on the input, and returns its processor time."""
    with open(folder / "input", "rb") as given, open(folder / "out", "wb") as written:
        child = subprocess.Popen(words, stdin=given, stdout=written, stderr=subprocess.DEVNULL)
        _, status, used = os.wait4(child.pid, 0)
    child.returncode = status
    return used.ru_utime + used.ru_stime


def memory(words, folder):
    """Returns the greatest memory of a run in MB. What this process holds would count if it began the program."""
    with open(folder / "input", "rb") as given:
        words = ["time", "-q", "-o", folder / "memory", "-f", "%M", *words]
        subprocess.run(words, stdin=given, stdout=subprocess.DEVNULL, stderr=subprocess.DEVNULL, check=False)
    return int((folder / "memory").read_text()) / 1000


def built(folder, grammar):
    """Returns the words that run peg(1)'s parser of a grammar, or none if a tool is not installed."""
    if not shutil.which("peg") or not shutil.which("gcc"):
        return None
    (folder / "it.peg").write_text(grammar)
    (folder / "main.c").write_text(C_MAIN)
    subprocess.check_call(["peg", "-o", folder / "it.c", folder / "it.peg"])
    subprocess.check_call(["gcc", "-O2", "-w", "-o", folder / "it", folder / "main.c"])
    return [folder / "it"]


def scripted(folder, program):
    """Returns the words that run LPeg's program, or none if Lua or LPeg is not installed."""
    asked = ["lua5.3", "-e", 'require "lpeg"']
    if not shutil.which("lua5.3") or subprocess.run(asked, stderr=subprocess.DEVNULL, check=False).returncode:
        return None
    (folder / "it.lua").write_text(LUA_HEAD + program)
    return ["lua5.3", folder / "it.lua"]


def measure(folder, words, text, rounds):
    """Returns of each program its least nanoseconds a byte, its MB, and what it printed; none where there is none."""
    least, said = [float("inf")] * len(words), [b""] * len(words)
    for _ in range(rounds):
        for at, it in enumerate(words):
            if it:
                least[at] = min(least[at], run(it, folder) / len(text) * 1e9)
                said[at] = (folder / "out").read_bytes()
    return [(ns, memory(it, folder), text) if it else None for ns, it, text in zip(least, words, said)]


def main(given):
    rounds = 5
    if given[:1] == ["-n"]:
        rounds, given = int(given[1]), given[2:]
    programs = given or [str(HERE.parents[2] / "bin" / "pegi")]
    print("| row | " + " | ".join(f"{it} ns | MB" for it in [*programs, "LPeg", "peg(1)"]) + " |")
    wrong = 0
    for name, options, grammar, of_peg, of_lua, make in ROWS:
        with tempfile.TemporaryDirectory(prefix="peg_bench-") as room:
            folder, text = pathlib.Path(room), make(SIZE)
            (folder / "input").write_text(text)
            (folder / "grammar").write_text(grammar)
            words = [[it, *options, folder / "grammar"] for it in programs]
            found = measure(folder, [*words, scripted(folder, of_lua), built(folder, of_peg)], text, rounds)
            reported = " | ".join(f"{it[0]:.1f} | {it[1]:.1f}" if it else " | " for it in found)
            print(f"| {name} | {reported} |", flush=True)
            if len({it[2] for it in found if it}) > 1:
                wrong += 1
                print(f"{name}: they do not print the same")
    return 1 if wrong else 0


sys.exit(main(sys.argv[1:]))
