#!/usr/bin/env python3
"""Compares bin/abnfg with a slow answer on random grammars: all short lists that the rule derives, as a set, in order.
With `-a` no letter of them comes after another one that is in the same sets. With `-m random` each line is derived, and
a seed gives the same lines again. With `-m cover` the lines are compared with the goals that short lists reach: each
line is a shortest one for some goal, and each goal has one. With `-x` this is so for the goal that is reported of each
line, and the goals that are reported as missed are those of no short list.

usage: random_lines.py [-n GRAMMARS] [-s SEED]

Of the letters of a class, those alone are tried that can stand in as many lines as are asked for: the first ones.
Grammars and their order follow from the seed alone. Prints how many grammars were tried, and how they ended; at the
first disagreement it prints the grammar, and then the status is 1. A program that is not built is skipped.
"""
import argparse
import collections
import itertools
import pathlib
import random
import subprocess
import sys
import tempfile

import random_abnf
import slow_abnf
from covered_lines import Reached, all_goals
from short_lists import ShortLists, bounds_in, first_alike, is_taken, line_key

BIN = pathlib.Path(__file__).resolve().parents[2] / "bin"
# The most lists that are made of the letters of a grammar, and that are made for its goals.
MOST_LISTS, MOST_REACHED = 4000, 1500
TOO_MANY = b"too many stacks\n"


def first_letters(bodies, is_utf8, end, count):
    """Returns the first letters of each class of letters that the elements take, so many of each, without the end."""
    bounds = sorted({0, 32, 33, 127, 0xE000, end, end + 1} | {it for body in bodies for it in bounds_in(body)})
    found = []
    for low, high in itertools.zip_longest(bounds, bounds[1:], fillvalue=0x110000):
        if any(is_taken(body, low) for body in bodies):
            found += [it for it in range(low, min(high, low + count))
                      if it != end and slow_abnf.is_letter(it, is_utf8)]
    return found


def end_letters(bodies, is_utf8, end):
    """Returns the first letter and the last one of each class of letters that the elements take, without the end."""
    most = 0x110000 if is_utf8 else 256
    bounds = sorted({0, 0xD800, 0xE000, end, end + 1} | {it for body in bodies for it in bounds_in(body)})
    found = set()
    for low, high in itertools.zip_longest(bounds, bounds[1:], fillvalue=most):
        high = min(high, most)
        if low < high and low != end and any(is_taken(body, low) for body in bodies):
            found |= {it for it in (low, high - 1) if slow_abnf.is_letter(it, is_utf8)}
    return sorted(found)


def written(letters, is_utf8):
    return "".join(map(chr, letters)).encode("utf-8" if is_utf8 else "latin-1")


class Case:
    """A random grammar, the words with which its lines are listed, and what is written."""

    def __init__(self, r):
        grammar = random_abnf.grammar(r)
        self.text = random_abnf.grammar_text(r, grammar)
        rule = r.choice([None, None, grammar[0][0]])
        self.is_utf8, self.end, self.count = r.random() < 0.5, r.choice([10, 10, 0]), r.choice([1, 2, 3, 5, 20])
        rules = slow_abnf.Rules(grammar)
        self.reported, self.is_refused = slow_abnf.notes_on(rules, rule)
        self.lines, self.alike, self.limit = [], [], 1
        self.rules, self.key = rules, (rule or next(iter(rules.file))).upper()
        if not self.is_refused:
            self.find_lines(rules, self.key, r.choice([1, 2, 3, 8]))
        self.seed = str(r.choice([0, 1, 2**64 - 1, r.randrange(2**64)]))
        self.plain = [*(["-s", rule] if rule else []), *(["-u", "utf8"] if self.is_utf8 else []),
                      *(["-z"] if self.end == 0 else [])]
        self.words = [*self.plain, "-c", str(self.count), "-l", str(self.limit)]
        self.most, self.reaching, self.least = self.limit, {}, {}

    def find_lines(self, rules, key, limit):
        bodies = [rules.all[it] for it in slow_abnf.reached(rules, key) if it in rules.all]
        letters = first_letters(bodies, self.is_utf8, self.end, self.count)
        while limit > 1 and len(letters) ** limit > MOST_LISTS:
            limit -= 1
        self.limit = limit
        lists = ShortLists(rules, letters, limit).derived(key)
        self.lines = sorted(lists, key=line_key)[:self.count]
        lists = ShortLists(rules, first_alike(bodies, self.is_utf8, self.end), limit).derived(key)
        self.alike = sorted(lists, key=line_key)[:self.count]

    def cover_words(self):
        return [*self.plain, "-c", "100000", "-l", str(self.most)]

    def find_goals(self):
        """Sets the greatest length of lines of `-m cover`, the lists that reach each goal, and the shortest of them."""
        bodies = [self.rules.all[it] for it in slow_abnf.reached(self.rules, self.key) if it in self.rules.all]
        letters, self.most = end_letters(bodies, self.is_utf8, self.end), self.limit
        while self.most > 1 and len(letters) ** self.most > MOST_REACHED:
            self.most -= 1
        found = Reached(self.rules, letters, self.most).goal_lists(self.key)
        self.reaching = {goal: lists for goal, lists in found.items() if lists}
        self.least = {goal: {it for it in lists if len(it) == min(map(len, lists))}
                      for goal, lists in self.reaching.items()}

    def output(self, lines):
        return b"".join(written(it, self.is_utf8) + bytes([self.end]) for it in lines)

    def ended(self, lines, out, err, status):
        """Returns how a run that lists these lines ended: a word, or nothing if something is wrong with it."""
        if self.is_refused:
            return "refused" if (out, err, status) == (b"", self.reported, 2) else None
        if status == 3:
            is_part = self.output(lines).startswith(out) and (not out or out[-1] == self.end)
            return "too many stacks" if is_part and err == self.reported + TOO_MANY else None
        wanted = (self.output(lines), self.reported, 0 if lines else 1)
        return ("lines" if lines else "no line") if (out, err, status) == wanted else None

    def is_line(self, line):
        is_right = all(it != self.end and slow_abnf.is_letter(it, self.is_utf8) for it in line)
        return is_right and len(line) <= self.limit and slow_abnf.Deriver(self.rules, line).derives(self.key)

    def records(self, out):
        """Returns the lines of an output, and what follows the last one."""
        text = out.decode("utf-8" if self.is_utf8 else "latin-1")
        *lines, rest = [tuple(map(ord, it)) for it in text.split(chr(self.end))]
        return lines, rest

    def covered(self, out, err, status):
        """Returns how a run of `-m cover` ended: a word, or nothing if something is wrong with it."""
        if self.is_refused:
            return "refused" if (out, err, status) == (b"", self.reported, 2) else None
        lines, rest = self.records(out)
        is_right = not rest and all(any(it in lists for lists in self.least.values()) for it in lines)
        is_complete = all(lists & set(lines) for lists in self.reaching.values())
        lengths = [len(it) for it in lines]
        is_ordered = len(set(lines)) == len(lines) and lengths == sorted(lengths, reverse=True)
        is_ended = (err, status) == (self.reported, 0 if lines else 1)
        return "covered" if is_right and is_complete and is_ordered and is_ended else None

    def is_explained(self, covered, explained):
        """Returns whether a run of `-m cover -x` is as that run without `-x`, but for a goal of each line, for which
        that is a shortest one, and the goals that no line reaches, in order."""
        if self.is_refused:
            return explained == covered
        out, err, status = explained
        goals, unit = all_goals(self.rules, self.key), "line" if self.end else "record"
        missed = [f"in no line: {text}" for goal, text in goals.items() if goal not in self.least]
        if missed:
            missed.append(f"{len(missed)} goals are in no line")
        lines, _ = self.records(out)
        reported = err[len(self.reported):].decode().split("\n")
        reached = [{f"{unit} {number}: {goals[it]}" for it, lists in self.least.items() if line in lists}
                   for number, line in enumerate(lines, 1)]
        is_same = (out, status) == (covered[0], covered[2]) and err.startswith(self.reported)
        is_right = all(it in texts for it, texts in zip(reported, reached))
        return is_same and is_right and reported[len(lines):] == [*missed, ""]

    def drawn(self, out, err, status):
        """Returns how a run of lines by lot ended: a word, or nothing if something is wrong with it."""
        if self.is_refused:
            return "refused" if (out, err, status) == (b"", self.reported, 2) else None
        lines, rest = self.records(out)
        if rest or not all(map(self.is_line, set(lines))):
            return None
        if status == 3:
            return "too many stacks" if not lines and err == self.reported + TOO_MANY else None
        count, wanted = (self.count, 0) if self.lines else (0, 1)
        return "by lot" if (len(lines), err, status) == (count, self.reported, wanted) else None


def run(words):
    ran = subprocess.run(words, capture_output=True, check=False)
    return ran.stdout, ran.stderr, ran.returncode


def main():
    words = argparse.ArgumentParser(description="Compares abnfg with slow answers on random grammars.")
    words.add_argument("-n", type=int, default=3000, metavar="GRAMMARS")
    words.add_argument("-s", type=int, default=1, metavar="SEED")
    asked = words.parse_args()
    if not (BIN / "abnfg").is_file():
        print("random_lines: abnfg: not built: skipped")
        return 0
    r, counts = random.Random(asked.s), collections.Counter()
    with tempfile.TemporaryDirectory(prefix="lines-") as made:
        grammar = pathlib.Path(made) / "grammar"
        for number in range(asked.n):
            case = Case(r)
            grammar.write_bytes(case.text)
            ran = run([BIN / "abnfg", *case.words, grammar])
            by_lot = [BIN / "abnfg", "-m", "random", "-g", case.seed, *case.words, grammar]
            drawn = run(by_lot)
            if not case.is_refused:
                case.find_goals()
            cover = [BIN / "abnfg", "-m", "cover", *case.cover_words(), grammar]
            how = case.ended(case.lines, *ran)
            counts[how] += 1
            if how is None:
                wanted = case.output(case.lines)
                print(f"grammar {number}: abnfg {' '.join(case.words)}: {ran}\n{case.text}\nwanted: {wanted}")
                return 1
            alike = run([BIN / "abnfg", "-a", *case.words, grammar])
            if case.ended(case.alike, *alike) is None:
                wanted = case.output(case.alike)
                print(f"grammar {number}: abnfg -a {' '.join(case.words)}: {alike}\n{case.text}\nwanted: {wanted}")
                return 1
            covered, explained = run(cover), run([*cover, "-x"])
            if case.covered(*covered) is None or not case.is_explained(covered, explained):
                print(f"grammar {number}: abnfg {' '.join(map(str, cover[1:-1]))}: {covered}\n{case.text}\n{explained}")
                return 1
            if case.drawn(*drawn) is None or run(by_lot) != drawn:
                print(f"grammar {number}: abnfg -m random -g {case.seed} {' '.join(case.words)}: {drawn}\n{case.text}")
                return 1
    reported = ", ".join(f"{count} ({what})" for what, count in counts.most_common())
    print(f"{asked.n} grammars listed: {reported}")
    return 0


if __name__ == "__main__":
    sys.exit(main())
