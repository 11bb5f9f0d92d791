#!/usr/bin/env python3
"""Compares the lines of `bin/abnfg -m miss` with slow answers on random grammars.

usage: random_misses.py [-n GRAMMARS] [-s SEED]

No line may be derived. Its longest viable prefix is all of it, or all but its last letter; then that letter is the
first that cannot stand there or, with -e, one next to a letter that can. Each prefix but the last has all of these. The
prefixes ascend, and no line comes twice. If all are written, the letters of each viable prefix of a few letters lead on
from one of the prefixes too. Grammars and their order follow from the seed.
Prints how many grammars were tried, and how they ended; at the first disagreement it prints the grammar, and then the
status is 1. A program that is not built is skipped.
"""
import argparse
import collections
import itertools
import pathlib
import random
import subprocess
import sys
import tempfile

import random_abnf
import slow_abnf
from short_lists import bounds_in, line_key

BIN = pathlib.Path(__file__).resolve().parents[2] / "bin"
TOO_MANY = b"too many stacks\n"


class Judge:
    """What a rule says of letters: which lists are lines, which begin one, and which letters are reported as wrong."""

    def __init__(self, rules, key, is_utf8, end, edges):
        self.rules, self.key, self.is_utf8, self.end, self.edges = rules, key, is_utf8, end, edges
        bodies = [rules.all[it] for it in slow_abnf.reached(rules, key) if it in rules.all]
        bounds = {0, 32, 33, 127, 0xE000, end, end + 1} | {it for body in bodies for it in bounds_in(body)}
        ends = {it - 1 for it in bounds if it > 0} if edges else set()
        self.firsts = sorted(filter(self.is_letter, bounds | ends), key=lambda it: line_key([it]))

    def is_letter(self, letter):
        return letter != self.end and slow_abnf.is_letter(letter, self.is_utf8)

    def derives(self, letters):
        return slow_abnf.Deriver(self.rules, letters).derives(self.key)

    def furthest(self, letters):
        return slow_abnf.furthest(self.rules, letters, self.key, self.is_utf8)

    def is_viable(self, letters):
        return self.furthest(letters) == len(letters)

    def wrong_after(self, letters):
        """Returns the letters that are reported after a prefix."""
        wrong = [it for it in self.firsts if not self.is_viable([*letters, it])]
        can = {it for it in self.firsts if it not in wrong}
        return wrong[:1] + [it for it in wrong[1:] if self.edges and {it - 1, it + 1} & can]

    def fault(self, line):
        """Returns what is wrong with a line, or nothing."""
        after = self.furthest(line)
        if self.derives(line):
            return "derived"
        if after < len(line) - 1:
            return "far from a line"
        if after < len(line) and line[-1] not in self.wrong_after(line[:-1]):
            return "another letter is the first that is wrong, or next to one that is not"
        return None

    def place(self, line):
        """Returns what orders a line: its prefix, and the wrong letter that follows, if there is one."""
        is_whole = self.is_viable(line)
        size, keys = line_key(line if is_whole else line[:-1])
        return size, tuple(keys), tuple(() if is_whole else line_key(line[-1:])[1])

    def lacks(self, lines, limit):
        """Returns a prefix that is not the last with a wrong letter that has no line; or nothing."""
        fronts = [line if self.is_viable(line) else line[:-1] for line in lines]
        for front in (it for it in fronts if len(it) < limit and it != fronts[-1]):
            lacking = [it for it in self.wrong_after(front) if [*front, it] not in lines]
            if lacking:
                return [*front, lacking[0]]
        return None


class Case:
    """A random grammar, the words with which its lines are listed, and what is wrong with them."""

    def __init__(self, r):
        grammar = random_abnf.grammar(r)
        self.text = random_abnf.grammar_text(r, grammar)
        rule = r.choice([None, None, grammar[0][0]])
        self.is_utf8, self.end, self.count = r.random() < 0.5, r.choice([10, 10, 0]), r.choice([1, 2, 5, 20])
        self.limit = r.choice([1, 2, 3, 8])
        rules = slow_abnf.Rules(grammar)
        self.reported, self.is_refused = slow_abnf.notes_on(rules, rule)
        key, edges = (rule or next(iter(rules.file))).upper(), r.random() < 0.5
        self.judge = None if self.is_refused else Judge(rules, key, self.is_utf8, self.end, edges)
        self.words = ["-m", "miss", *(["-s", rule] if rule else []), *(["-u", "utf8"] if self.is_utf8 else []),
                      *(["-e"] if edges else []), *(["-z"] if self.end == 0 else []), "-c", str(self.count), "-l",
                      str(self.limit)]

    def lines_in(self, out):
        text = out.decode("utf-8" if self.is_utf8 else "latin-1")
        return [list(map(ord, it)) for it in text.split(chr(self.end))[:-1]]

    def missing(self, lines):
        """Returns a short viable prefix, or one with a wrong letter, that has no line like it; or nothing."""
        told = [it for it in lines if not self.judge.is_viable(it)]
        for size in range(min(self.limit, 3)):
            for front in itertools.islice(itertools.product(self.judge.firsts, repeat=size), 200):
                wrong = self.judge.wrong_after(list(front)) if self.judge.is_viable(list(front)) else []
                lacking = [it for it in wrong if it not in {line[-1] for line in told}]
                if lacking:
                    return [*front, lacking[0]]
        return None

    def fault(self, out, status):
        lines = self.lines_in(out)
        faults = (self.judge.fault(it) for it in lines)
        places = [self.judge.place(it) for it in lines]
        is_whole = status in (0, 1) and len(lines) < self.count
        if places != sorted(set(places)) or len(lines) > self.count or any(len(it) > self.limit for it in lines):
            return "order or size"
        first = next((it for it in faults if it), None) or self.judge.lacks(lines, self.limit)
        return first or (is_whole and self.missing(lines)) or None

    def ended(self, out, err, status):
        """Returns how a run ended: a word, or nothing if something is wrong with it."""
        if self.is_refused:
            return "refused" if (out, err, status) == (b"", self.reported, 2) else None
        if self.fault(out, status):
            return None
        if status == 3:
            return "too many stacks" if err == self.reported + TOO_MANY else None
        return ("lines" if out else "no line") if (err, status) == (self.reported, 0 if out else 1) else None


def main():
    words = argparse.ArgumentParser(description="Compares abnfg -m miss with slow answers on random grammars.")
    words.add_argument("-n", type=int, default=3000, metavar="GRAMMARS")
    words.add_argument("-s", type=int, default=1, metavar="SEED")
    asked = words.parse_args()
    if not (BIN / "abnfg").is_file():
        print("random_misses: abnfg: not built: skipped")
        return 0
    r, counts = random.Random(asked.s), collections.Counter()
    with tempfile.TemporaryDirectory(prefix="misses-") as made:
        grammar = pathlib.Path(made) / "grammar"
        for number in range(asked.n):
            case = Case(r)
            grammar.write_bytes(case.text)
            ran = subprocess.run([BIN / "abnfg", *case.words, grammar], capture_output=True, check=False)
            how = case.ended(ran.stdout, ran.stderr, ran.returncode)
            counts[how] += 1
            if how is None:
                why = None if case.is_refused else case.fault(ran.stdout, ran.returncode)
                print(f"grammar {number}: abnfg {' '.join(case.words)}: {ran}\n{case.text}\n{why}")
                return 1
    reported = ", ".join(f"{count} ({what})" for what, count in counts.most_common())
    print(f"{asked.n} grammars: misses: {reported}")
    return 0


if __name__ == "__main__":
    sys.exit(main())
