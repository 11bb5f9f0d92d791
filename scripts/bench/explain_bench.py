#!/usr/bin/env python3
"""Measures `pegi -x` on large units that fail, beside the same run without it.

usage: explain_bench.py [-r RUNS]

Runs bin/pegi on a CSV of 3 MB as one unit with a fault in its last field, on JSON by examples/json that is cut at 1 MB,
and on 4,000,000 open brackets. Prints the processor seconds and the MB of each run, the least of RUNS (3), and the
factors of `-x`. BIN names the folder of the program, bin/ if not set.
"""
import argparse
import json
import os
import pathlib
import random
import subprocess
import sys
import tempfile

TOP = pathlib.Path(__file__).resolve().parents[2]
BIN = pathlib.Path(os.environ.get("BIN") or TOP / "bin")

CSV = r"""File    <- Record ( LineEnd Record )* !.
Record  <- Field ( ',' Field )*
Field   <- '"' ( [^"] / '""' )* '"' / [^",\r\n]*
LineEnd <- '\r\n' / '\n'
"""
OPEN = "S <- T !.\nT <- '(' T ')' / 'a'\n"


def csv_text(rng, size):
    """Returns records of eight fields up to about this size, and one whose last field has no closing quote."""
    fields = ["alpha", "plain text", "x y z", "2024-01-17", "474363", '"quoted, ""text"""']
    lines, length = [], 0
    while length < size:
        lines.append(",".join(rng.choice(fields) for _ in range(8)) + "\r\n")
        length += len(lines[-1])
    return "".join(lines) + 'a,b,"c'


def value(rng, depth):
    """Returns a random JSON value."""
    kind = rng.random()
    if depth > 3 or kind < 0.35:
        return rng.choice([rng.randrange(10**6), rng.random(), True, None, "some text", 'x"y'])
    if kind < 0.7:
        return {f"key{i}": value(rng, depth + 1) for i in range(4)}
    return [value(rng, depth + 1) for _ in range(5)]


def json_text(rng, size):
    """Returns a JSON list that is cut at this size."""
    texts, length = [], 1
    while length < size:
        texts.append(json.dumps(value(rng, 0), indent=1))
        length += len(texts[-1]) + 2
    return ("[" + ",\n".join(texts) + "]")[:size]


def cost(options, grammar, data):
    """Returns the processor seconds and the MB of a run."""
    with open(data, "rb") as source:
        child = subprocess.Popen([BIN / "pegi", *options, "-l", "16777216", grammar], stdin=source,
                                 stdout=subprocess.DEVNULL, stderr=subprocess.DEVNULL)
        _, _, usage = os.wait4(child.pid, 0)
    return usage.ru_utime + usage.ru_stime, usage.ru_maxrss / 1024


def main():
    parser = argparse.ArgumentParser(description=__doc__.splitlines()[0])
    parser.add_argument("-r", "--runs", type=int, default=3)
    runs = parser.parse_args().runs
    rng = random.Random(7)
    cases = (("CSV, 3 MB", CSV, csv_text(rng, 3_000_000)),
             ("JSON, 1 MB", (TOP / "examples/json/json.peg").read_text(), json_text(rng, 1_000_000)),
             ("4,000,000 open brackets", OPEN, "(" * 4_000_000))
    with tempfile.TemporaryDirectory() as folder:
        grammar, data = pathlib.Path(folder, "a.peg"), pathlib.Path(folder, "a.txt")
        for name, rules, text in cases:
            grammar.write_text(rules)
            data.write_text(text)
            both = [[min(one) for one in zip(*(cost(options, grammar, data) for _ in range(runs)))]
                    for options in ([], ["-x"])]
            (time, memory), (time_x, memory_x) = both
            print(f"{name}: {time:.2f} s, {memory:.0f} MB; with -x {time_x:.2f} s, {memory_x:.0f} MB "
                  f"({time_x / time:.1f}, {memory_x / memory:.1f} times)")


if __name__ == "__main__":
    sys.exit(main())
