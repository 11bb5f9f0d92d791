#!/usr/bin/env python3
"""Lists lines of each grammar of examples/ by bin/abnfg, and judges them by bin/abnfi: each is derived, also
by lot and by goal, or with `-m miss` none is. What `-x` explains of those is what `abnfi -x` explains.

usage: listed_lines.py [-c LINES]

Lines end with NUL bytes in both, so that they may hold line feeds. Prints how many lines were judged; if one is
rejected, the grammar's name and the status is 1. A program that is not built is skipped.
"""
import argparse
import pathlib
import subprocess
import sys

TOP = pathlib.Path(__file__).resolve().parents[2]
BIN = TOP / "bin"


def run(program, *words, lines=b""):
    return subprocess.run([BIN / program, "-z", *words], input=lines, capture_output=True, check=False)


def listed(grammar, mode, count):
    """Returns the lines of a grammar in a mode, each with its end; none if the grammar is rejected."""
    ran = run("abnfg", "-m", mode, "-c", str(count), grammar)
    return ran.stdout if ran.returncode in (0, 3) else b""


def is_explained_alike(grammar):
    """Returns whether both explain the first rejected lines alike, as many as abnfi explains."""
    plain = run("abnfg", "-m", "miss", "-c", "16", grammar)
    if plain.returncode != 0:
        return True
    ran = run("abnfg", "-x", "-m", "miss", "-c", "16", grammar)
    why = ran.stderr[len(plain.stderr):]
    count = sum(it.startswith(b"record ") for it in why.splitlines())
    return (ran.stdout, ran.stderr, ran.returncode, count) == (
        plain.stdout, plain.stderr + why, 0, plain.stdout.count(b"\0")) and run(
        "abnfi", "-x", grammar, lines=plain.stdout).stderr.endswith(why)


def main():
    words = argparse.ArgumentParser(description="Judges by abnfi what abnfg lists of each grammar of examples/.")
    words.add_argument("-c", type=int, default=1000, metavar="LINES")
    count = words.parse_args().c
    if not all((BIN / it).is_file() for it in ("abnfg", "abnfi")):
        print("listed_lines: abnfg or abnfi: not built: skipped")
        return 0
    judged = {"all": 0, "cover": 0, "random": 0, "miss": 0}
    for grammar in sorted(TOP.glob("examples/*/*.abnf")):
        for mode in judged:
            verdict, status = (b"no\n", 1) if mode == "miss" else (b"yes\n", 0)
            lines = listed(grammar, mode, count)
            ran = run("abnfi", grammar, lines=lines)
            if lines and (ran.returncode, ran.stdout) != (status, verdict * lines.count(b"\0")):
                print(f"{grammar.relative_to(TOP)}: a line of -m {mode} has another verdict: {ran}")
                return 1
            judged[mode] += lines.count(b"\0")
        if not is_explained_alike(grammar):
            print(f"{grammar.relative_to(TOP)}: a line of -m miss is explained otherwise by abnfi")
            return 1
    missed = judged.pop("miss")
    print(f"{sum(judged.values())} listed lines are derived, and {missed} are not")
    return 0


sys.exit(main())
