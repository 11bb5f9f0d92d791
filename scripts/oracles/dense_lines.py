#!/usr/bin/env python3
"""Runs abnfi on lines whose item sets hold many items for their letters, so that the judge keeps them as rows of bits,
and compares the answers with what the grammars' languages say in plain words; and on random grammars that derive lines
in many ways, whose answers it compares with those of slow_abnf.py, on short lines and on long ones.

usage: dense_lines.py [-n N] [-r R] [-s SEED]

N lines a grammar, 40 if not given, of 1 to 400 letters, and R random grammars, 30 if not given. Prints what differs,
and then the status is 1. It needs bin/abnfi.
"""
import argparse
import pathlib
import random
import re
import subprocess
import sys
import tempfile

import slow_abnf
from random_abnf import grammar_text

ABNFI = pathlib.Path(__file__).resolve().parents[2] / "bin/abnfi"


def prefix(letters, line):
    """Returns how many letters at the front of the line are some of these."""
    return re.match(f"[{letters}]*", line).end()


# A grammar, its letters, and which lines of these letters alone it derives. Each of these lines begins one of them.
GRAMMARS = (
    ('s = s s / "a" / "b"\n', "ab", lambda line: line != ""),
    ('s = "a" s "a" / "a"\n', "a", lambda line: len(line) % 2 == 1),
    ('s = "a" s "a" / "b" s "b" / "a" / "b"\n', "ab", lambda line: len(line) % 2 == 1 and line == line[::-1]),
    ('b = LWSP ( "a" / b b ) 0*10[ b ]\nCRLF = b\n', "a", lambda line: line != ""),
)


def random_line(letters):
    """Returns a line of these letters; some have another letter somewhere, and some read the same backwards."""
    line = "".join(random.choices(letters, k=random.choice((1, 2, 3, 40, 150, 299, 300, 400))))
    if random.random() < 0.4:
        line = line + line[-2::-1]
    if random.random() < 0.3:
        place = random.randrange(len(line))
        line = line[:place] + "z" + line[place + 1 :]
    return line[:400]


def answer_to(line, letters, derives):
    """Returns the answer of `abnfi -w`."""
    front = prefix(letters, line)
    return "yes" if front == len(line) and derives(line) else f"no {front}"


A, B = ("text", b"a", False), ("text", b"b", False)
# No automaton counts how often something nullable is repeated, so the item sets judge a rule with this alternative.
COUNTED = ("concat", [("rep", 2, 3, ("opt", ("text", b"q", False))), ("text", b"q", False)])


def random_element(depth):
    """Returns a random element, often with calls of the rules on both sides."""
    kinds = ("leaf", "call", "call", "call") if depth == 0 else ("call", "concat", "concat", "alt", "opt", "rep")
    kind = random.choice(kinds)
    if kind in ("leaf", "call"):
        return random.choice((A, B)) if kind == "leaf" else ("name", random.choice("stu"))
    if kind in ("concat", "alt"):
        return kind, [random_element(depth - 1) for _ in range(random.choice((2, 2, 3)))]
    if kind == "opt":
        return kind, random_element(depth - 1)
    return kind, random.choice((0, 1, 2)), random.choice((None, 2, 4)), random_element(depth - 1)


def random_grammar():
    """Returns a grammar of three rules, each of which derives a letter and something that calls rules."""
    rules = [(it, False, ("alt", [random_element(2), random.choice((A, B)), random_element(1)])) for it in "stu"]
    return [(name, adds, ("alt", [*body[1], COUNTED]) if name == "s" else body) for name, adds, body in rules]


def are_as_slow(rules):
    """Returns whether abnfi answers lines of a grammar, short ones and long ones, as the slow answer does."""
    sizes = (1, 3, 7, random.randrange(100, 140), random.randrange(100, 140))
    lines = ["".join(random.choices("aab" + "q" * (random.random() < 0.1), k=it)) for it in sizes]
    text, given = grammar_text(random, rules), "".join(f"{it}\n" for it in lines).encode()
    with tempfile.NamedTemporaryFile("wb", suffix=".abnf") as file:
        file.write(text)
        file.flush()
        run = subprocess.run([ABNFI, file.name], input=given, capture_output=True, check=False)
    out, reported, status, _ = slow_abnf.answer(rules, given, 65536, None)
    right = (run.stdout, run.stderr, run.returncode) == (out, reported, status)
    if not right:
        print(f"{text!r}, {given!r}: {run.stdout!r}, {run.stderr!r}, {run.returncode}, "
              f"not {out!r}, {reported!r}, {status}")
    return right


def main():
    words = argparse.ArgumentParser()
    words.add_argument("-n", type=int, default=40)
    words.add_argument("-r", type=int, default=30)
    words.add_argument("-s", type=int, default=26)
    asked = words.parse_args()
    count, wrong = asked.n, 0
    random.seed(asked.s)
    for grammar, letters, derives in GRAMMARS:
        lines = [random_line(letters) for _ in range(count)]
        with tempfile.NamedTemporaryFile("w", suffix=".abnf") as file:
            file.write(grammar)
            file.flush()
            text = "".join(f"{it}\n" for it in lines)
            run = subprocess.run([ABNFI, "-w", file.name], input=text, capture_output=True, text=True, check=False)
        wanted = [answer_to(it, letters, derives) for it in lines]
        got = run.stdout.splitlines()
        if got != wanted:
            wrong += 1
            differs = [it for it in zip(lines, wanted, got) if it[1] != it[2]]
            print(f"{grammar!r}: {differs[:1] or run.stderr}")
    wrong += sum(not are_as_slow(random_grammar()) for _ in range(asked.r))
    print(f"{len(GRAMMARS)} grammars of dense lines and {asked.r} random ones, {wrong} of them wrong")
    return 1 if wrong else 0


sys.exit(main())
