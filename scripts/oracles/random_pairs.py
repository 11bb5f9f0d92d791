#!/usr/bin/env python3
"""Compares bin/abnfd with a slow answer to random pairs of grammars: all short lists that the rules derive, as sets.

usage: random_pairs.py [-n PAIRS] [-s SEED]

A pair is a random grammar (random_abnf.py) and one like it: the same rules spelled otherwise, or with a part replaced,
or another grammar. Each quoted line is judged by bin/abnfi and both grammars. What -x adds is compared with what
bin/abnfi -x writes for each quoted line by the grammar that rejects it. Pairs and their order follow from the seed
alone. The lines of -a are compared with a run of each rule that both grammars define. Prints how many pairs were
compared, and how often what was known; at the first disagreement it prints the pair, and then the status is 1. A
program that is not built is skipped.
"""
import argparse
import collections
import pathlib
import random
import re
import subprocess
import sys
import tempfile

import random_abnf
import slow_abnf
from short_lists import ShortLists, line_key, samples

BIN = pathlib.Path(__file__).resolve().parents[2] / "bin"
# The most lists that are made of the letters of a pair.
MOST_LISTS = 600
# The words of -a for the statuses.
WORDS = {0: "same", 1: "differ", 2: "rejected", 3: "not known"}
ALONE = re.compile(rb'[<>] (?:"(?P<line>(?:[ !#-\[\]-~]|\\x[0-9A-F]{2})*)"|(?P<none>none)'
                   rb"|none of at most (?P<most>\d+) letters|not known)")


def replaced(r, e, other):
    """Returns an element with one of its parts replaced by another."""
    if e[0] not in ("concat", "alt", "rep", "opt") or r.random() < 0.3:
        return other
    if e[0] in ("concat", "alt"):
        at = r.randrange(len(e[1]))
        return e[0], [replaced(r, it, other) if at == n else it for n, it in enumerate(e[1])]
    return (*e[:-1], replaced(r, e[-1], other))


def like(r, grammar):
    """Returns a grammar like that one."""
    kind = r.random()
    if kind < 0.4:
        return grammar
    if kind < 0.8:
        at = r.randrange(len(grammar))
        names = [it[0] for it in grammar]
        other = random_abnf.element(r, names, 1)
        return [(name, adds, replaced(r, body, other) if at == n else body)
                for n, (name, adds, body) in enumerate(grammar)]
    return random_abnf.grammar(r)


def judged(text, key, line, is_utf8, folder, *options):
    """Returns how abnfi judges a line by a rule; nothing where both of its ends stand in the line."""
    ends = [it for it in (b"\n", b"\0") if it not in line]
    if not ends:
        return None
    (folder / "judged").write_bytes(text)
    words = ["-s", key, *(["-u", "utf8"] if is_utf8 else []), *(["-z"] if ends[0] == b"\0" else []), *options, "judged"]
    ran = subprocess.run([BIN / "abnfi", *words], cwd=folder, input=line + ends[0], capture_output=True, check=False)
    assert ran.stdout in (b"yes\n", b"no\n"), ran
    return ran


def is_derived(rules, text, key, line, is_utf8, folder):
    """Returns whether abnfi says that a rule derives a line. Where both of its ends stand in the line, the slow answer
    says it."""
    ran = judged(text, key, line, is_utf8, folder)
    if ran is None:
        letters, is_text = slow_abnf.letters_of(line, is_utf8)
        return is_text and slow_abnf.Deriver(rules, letters).derives(key)
    return ran.stdout == b"yes\n"


class Side:
    """A grammar of a pair, its text, and the name that the words give for the compared rule."""

    def __init__(self, r, name, grammar, rule):
        self.name, self.text = name, random_abnf.grammar_text(r, grammar)
        self.rules = slow_abnf.Rules(grammar)
        notes, self.is_refused = slow_abnf.notes_on(self.rules, rule)
        self.reported = b"".join(b"%s: %s" % (name, it) for it in notes.splitlines(keepends=True))
        self.key = (rule or next(iter(self.rules.file))).upper()

    def bodies(self):
        return [self.rules.all[it] for it in slow_abnf.reached(self.rules, self.key) if it in self.rules.all]


def unquoted(line):
    return re.sub(rb"\\x(..)", lambda it: bytes([int(it[1], 16)]), line)


def fault_of_alone(found, mine, others, is_utf8, folder, first, longest):
    """Returns what is wrong with what is known of the lines that one side alone derives; nothing if it is right.
    `first` is the first one of the short lists, if there is one."""
    if found["line"] is not None:
        line = unquoted(found["line"])
        letters, is_text = slow_abnf.letters_of(line, is_utf8)
        if not is_text:
            return "it is not UTF-8"
        if first is not None and tuple(letters) != first or first is None and len(letters) <= longest:
            return f"the first line is {first}"
        if not is_derived(mine.rules, mine.text, mine.key, line, is_utf8, folder):
            return "its grammar does not derive it"
        if is_derived(others.rules, others.text, others.key, line, is_utf8, folder):
            return "the other grammar derives it"
    elif found["none"] and first is not None:
        return f"{first} is such a line"
    elif found["most"] and first is not None and len(first) <= int(found["most"]):
        return f"{first} is such a line"
    return None


def fault_of(old, new, is_utf8, ran, folder):
    """Returns what is wrong with a run, if something is, and what was known of both sides."""
    if ran.stderr != old.reported + new.reported:
        return f"messages: {old.reported + new.reported}", ()
    if old.is_refused or new.is_refused:
        return None if (ran.stdout, ran.returncode) == (b"", 2) else "a grammar is refused", ("refused",)
    letters = samples(old.bodies() + new.bodies(), is_utf8)
    longest = next((it for it in range(8, 0, -1) if len(letters) ** it <= MOST_LISTS), 1)
    lists = [ShortLists(it.rules, letters, longest).derived(it.key) for it in (old, new)]
    firsts = [min(a - b, key=line_key, default=None) for a, b in (lists, lists[::-1])]
    if ran.stdout == b"same\n":
        return None if ran.returncode == 0 and firsts == [None, None] else f"first lines: {firsts}", ("same",)
    lines = ran.stdout.split(b"\n")
    known = [ALONE.fullmatch(it) for it in lines[1:3]]
    if len(lines) != 4 or lines[3] or not all(known) or lines[1][:1] + lines[2][:1] != b"<>":
        return "its form", ()
    is_quoted = any(it["line"] is not None for it in known)
    wanted = (b"differ", 1) if is_quoted else (b"not known", 3)
    if (lines[0], ran.returncode) != wanted or all(it["none"] for it in known):
        return "its first line, or the status", ()
    for found, mine, others, first in zip(known, (old, new), (new, old), firsts):
        fault = fault_of_alone(found, mine, others, is_utf8, folder, first, longest)
        if fault:
            return f"{found[0]}: {fault}", ()
    return None, tuple("a line" if it["line"] is not None else "none" if it["none"] else "none of at most" if it["most"]
                       else "nothing" for it in known)


def fault_of_explained(old, new, is_utf8, ran, options, folder):
    """Returns what is wrong with a run with -x, if something is: it adds what abnfi -x writes for each quoted line by
    the other grammar, with the name of that one in place of `line 1`. A line that holds a line feed is not compared,
    since abnfi explains it as a record."""
    found = [ALONE.fullmatch(it) for it in ran.stdout.split(b"\n")[1:3]]
    quoted = [(side, unquoted(it["line"])) for side, it in zip((new, old), found) if it and it["line"] is not None]
    runs = [(side, judged(side.text, side.key, line, is_utf8, folder, "-x")) for side, line in quoted]
    if not all(run and b"\n" not in line for (_, run), (_, line) in zip(runs, quoted)):
        return None
    added = [re.sub(rb"(?ms)(.*?)^line 1(.*)", side.name + rb"\2", run.stderr) for side, run in runs]
    wanted = ran.stdout + b"".join(added), ran.stderr, ran.returncode
    words = [BIN / "abnfd", "-x", *options, "old", "new"]
    run = subprocess.run(words, cwd=folder, capture_output=True, check=False)
    return None if (run.stdout, run.stderr, run.returncode) == wanted else f"with -x {run}, not {wanted}"


def fault_of_all(old, new, options, folder):
    """Returns what is wrong with a run with -a, if something is: a run of each rule gives the status of its line."""
    def ran(*words):
        words = [BIN / "abnfd", *options, *words, "old", "new"]
        return subprocess.run(words, cwd=folder, capture_output=True, check=False)

    olds, news = old.rules.spelled, new.rules.spelled
    shared = [name for key, name in olds.items() if key in news]
    statuses = [ran("-s", it).returncode for it in shared]
    lines = [f"{name}: {WORDS[status]}\n" for name, status in zip(shared, statuses)]
    lines += [f"< {name}\n" for key, name in olds.items() if key not in news]
    lines += [f"> {name}\n" for key, name in news.items() if key not in olds]
    wanted, run = ("".join(lines).encode(), max(statuses, default=0)), ran("-a")
    return None if (run.stdout, run.returncode) == wanted else f"with -a {run}, not {wanted}"


def main():
    words = argparse.ArgumentParser(description="Compares abnfd with slow answers to random pairs of grammars.")
    words.add_argument("-n", type=int, default=3000, metavar="PAIRS")
    words.add_argument("-s", type=int, default=1, metavar="SEED")
    asked = words.parse_args()
    if not all((BIN / it).is_file() for it in ("abnfd", "abnfi")):
        print("random_pairs: abnfd or abnfi: not built: skipped")
        return 0
    r, counts = random.Random(asked.s), collections.Counter()
    with tempfile.TemporaryDirectory(prefix="pairs-") as made:
        folder = pathlib.Path(made)
        for number in range(asked.n):
            grammar = random_abnf.grammar(r)
            rule = r.choice([None, None, grammar[0][0]])
            old, new = Side(r, b"old", grammar, rule), Side(r, b"new", like(r, grammar), rule)
            is_utf8, budget = r.random() < 0.5, r.choice([1, 100, 5000, 5000, 5000])
            (folder / "old").write_bytes(old.text)
            (folder / "new").write_bytes(new.text)
            options = [*(["-s", rule] if rule else []), *(["-u", "utf8"] if is_utf8 else []), "-b", str(budget)]
            ran = subprocess.run([BIN / "abnfd", *options, "old", "new"], cwd=folder, capture_output=True, check=False)
            fault, known = fault_of(old, new, is_utf8, ran, folder)
            counts["; ".join(known)] += 1
            fault = fault or fault_of_explained(old, new, is_utf8, ran, options, folder)
            if not fault and number % 10 == 0:
                fault = fault_of_all(old, new, options[2:] if rule else options, folder)
            if fault:
                print(f"pair {number}: abnfd {' '.join(options)}: {fault}\n{ran}\nold: {old.text}\nnew: {new.text}")
                return 1
    reported = ", ".join(f"{count} ({what})" for what, count in counts.most_common())
    print(f"{asked.n} pairs compared: {reported}")
    return 0


sys.exit(main())
