#!/usr/bin/env python3
"""Measures the greatest time and memory that hostile grammars and their lines or units reach.

usage: worst_cases.py [-r RANDOM] [-s SEED] [-n SHOWN] [-t SECONDS] [-b BUDGET]

Runs bin/abnfi and bin/pegi on families of grammars with one line or unit of 1,000, 8,000 and 64,000 bytes, and
bin/abnfi on RANDOM grammars (200 if not given), with a line of 2,000 letters each. A run has SECONDS of processor time
(10) and 2 GB; it is not tried on a longer line once it has used one of them up. Prints for each family and length the
seconds, the MB and the status, and of the random grammars the SHOWN (5) that take most time, and most memory. `>`
stands before what was ended. At last it prints the greatest of both for each program. Runs have no budget, or `-b
BUDGET`. BIN names the folder of the programs, bin/ if not set.
"""
import argparse
import collections
import os
import pathlib
import random
import subprocess
import sys
import tempfile

TOP = pathlib.Path(__file__).resolve().parents[2]
sys.path.insert(0, str(TOP / "scripts/oracles"))
import random_abnf

BIN = pathlib.Path(os.environ.get("BIN") or TOP / "bin")
LENGTHS = (1000, 8000, 64000)
BOUNDED = ["sh", "-c", 'ulimit -v 2000000; ulimit -t $0; exec "$@"']
MANY = 5000

# A program, its grammar, and what its line or unit has again and again, between a front and an end.
Family = collections.namedtuple("Family", "program grammar piece front end", defaults=("", ""))
# What a run used: seconds, MB, and its status, negative for a signal.
Cost = collections.namedtuple("Cost", "seconds memory status")
# The options of each run, and what the runs of each program took.
options, taken = [], collections.defaultdict(list)


def abnf(grammar, piece="a", front="", end=""):
    return Family("abnfi", grammar + "\n", piece, front, end)


def peg(grammar, piece="a", front="", end=""):
    return Family("pegi", grammar + "\n", piece, front, end)


FAMILIES = {
    "dense": abnf('s = s s / "a"'),
    "dense, refused at the end": abnf('s = s s / "a"', end="b"),
    "dense, nullable": abnf('s = s s s / "a" / ""'),
    "dense, 100 rules": abnf("\n".join(f'r{it} = r{(it + 1) % 100} r{(it + 7) % 100} / "a"' for it in range(100))),
    "palindromes": abnf('s = "a" s "a" / "b" s "b" / "a" / "b"'),
    "middles": abnf('s = "a" s "a" / "a"'),
    "cycles": abnf('s = t / "a" s\nt = u / "b"\nu = s / s "a"'),
    "left recursion": abnf('s = s "a" / "a"'),
    "right recursion, two": abnf('s = "a" s / "a" t / "a"\nt = "a" s'),
    "nested repetitions": abnf('s = *(*"a")'),
    "nested repetitions, 200": abnf("s = " + "*(" * 199 + '"a"' + ")" * 199),
    "nested options, 200": abnf("s = *" + "[" * 199 + '"a"' + "]" * 199),
    "counted": abnf('s = 1*65536(*"a")'),
    "counted, nested": abnf('s = 1*100(1*100(1*100(ALPHA)))'),
    "counted, overlapping": abnf('s = *"a" 1000"a" *"a" 2000"a"'),
    "counted alternatives": abnf("s = " + " / ".join(f'*("a" / "b") "a" {it % 50}("a" / "b")' for it in range(500))),
    "5,000 alternatives": abnf("s = *(" + " / ".join(f'"{"a" * (1 + it % 70)}"' for it in range(MANY)) + ")"),
    "5,000 rules of names": abnf("\n".join(f'r{it} = r{(it + 1) % MANY} / "a" r0 / ""' for it in range(MANY))),
    "brackets": abnf('s = "[" *s "]" / ""', piece="[", end="]"),
    "units that print twice as much a rule": peg(
        "\n".join(f"r{it} <- r{it + 1} r{it + 1}" for it in range(30)) + "\nr30 <- { a }", piece="a"),
    "units that print nothing, twice as often": peg(
        "s <- r0 'a'\n" + "\n".join(f"r{it} <- r{it + 1} r{it + 1}" for it in range(60)) + "\nr60 <- <"),
    "deep recursion": peg("s <- '(' s ')' / 'a'", piece="("),
    "many rules at each byte": peg("s <- r0* !.\n" + "\n".join(
        f"r{it} <- r{it + 1} 'b' / r{it + 1}" for it in range(MANY)) + f"\nr{MANY} <- 'a'"),
    "looking ahead at each byte": peg("s <- (!(.* 'b') .)*"),
    "choices at each byte": peg("s <- (" + " / ".join(f"'{'a' * (it % 70)}b'" for it in range(MANY)) + " / 'a')*"),
}


def cost_of(program, grammar, given, seconds, folder):
    """Returns what a run takes that has so many seconds."""
    (folder / "grammar").write_bytes(grammar)
    (folder / "given").write_bytes(given)
    files = [folder / "grammar", folder / "given"]
    words = [*BOUNDED, str(seconds), BIN / program, "-l", "16777216", *options, *files]
    child = subprocess.Popen(words, stdout=subprocess.DEVNULL, stderr=subprocess.DEVNULL)
    _, status, used = os.wait4(child.pid, 0)
    child.returncode = os.waitstatus_to_exitcode(status)
    cost = Cost(used.ru_utime + used.ru_stime, used.ru_maxrss / 1000, child.returncode)
    taken[program].append(cost)
    return cost


def is_ended(cost):
    """Returns whether a run used up its time or its memory."""
    return cost.status < 0 or cost.status == 5


def cell(cost):
    return f"{'>' * is_ended(cost)}{cost.seconds:.1f} s, {cost.memory:,.0f} MB, {cost.status}"


def families(seconds, folder):
    """Prints what each family takes."""
    for name, it in FAMILIES.items():
        cells = []
        for length in LENGTHS:
            given = it.front + it.piece * ((length - len(it.front + it.end)) // len(it.piece)) + it.end
            end = b"\n" if it.program == "abnfi" else b""
            cost = cost_of(it.program, it.grammar.encode(), given.encode() + end, seconds, folder)
            cells.append(cell(cost))
            if is_ended(cost):
                break
        print(f"| {it.program}, {name} | {' | '.join(cells)} |", flush=True)


def random_ones(r, count, shown, seconds, folder):
    """Prints the random grammars that take most."""
    found = []
    for _ in range(count):
        rules = random_abnf.grammar(r)
        grammar, given = random_abnf.grammar_text(r, rules), bytes(r.choice(b"aab0") for _ in range(2000)) + b"\n"
        found.append((cost_of("abnfi", grammar, given, seconds, folder), grammar))
    for at in (0, 1):
        for cost, grammar in sorted(found, key=lambda it: it[0][at], reverse=True)[:shown]:
            print(f"| abnfi, {grammar!r} | {cell(cost)} |", flush=True)


def main():
    words = argparse.ArgumentParser()
    words.add_argument("-r", type=int, default=200)
    words.add_argument("-s", default="1")
    words.add_argument("-n", type=int, default=5)
    words.add_argument("-t", type=int, default=10)
    words.add_argument("-b", type=int)
    asked = words.parse_args()
    if asked.b:
        options.extend(["-b", str(asked.b)])
    with tempfile.TemporaryDirectory(prefix="worst-") as folder:
        families(asked.t, pathlib.Path(folder))
        random_ones(random.Random(asked.s), asked.r, asked.n, asked.t, pathlib.Path(folder))
    for program, costs in taken.items():
        seconds, memory = max(it.seconds for it in costs), max(it.memory for it in costs)
        print(f"| {program}, greatest | {seconds:.1f} s, {memory:,.0f} MB |")
    return 0


sys.exit(main())
