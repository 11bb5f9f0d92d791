#!/usr/bin/env python3
"""Compares bin/pegi and bin/abnfi with slow answers to random grammars and inputs (slow_peg.py, slow_abnf.py).

usage: random_cases.py [-n COUNT] [-s SEED] [-u] [-w] [-z] [-k] [-p] [-q] [-b] [-1] [-e] [-d] [-x] [pegi | abnfi]

A case is a unit that pegi tries, a line that abnfi judges, or a grammar that is rejected. COUNT cases are compared,
half of them by each program; 20000 if it is not given. Cases and their order follow from the seed alone. Prints how
many cases were compared; at the first disagreement it prints the case and ends with status 1. A program that is not
built is skipped. With -u half of the runs of abnfi have its option `-u utf8`; so it is with -w, -z and -k, and its
options of these names. With -p most of them have its option `-p`, `-n` or `-H`, with -q some its option `-q`. With -1 a
third of the runs of pegi have its option `-1`, with -e half of them `--escapes`. With -b half of the runs of both have
the option `--line-buffered`, which changes no answer. With -d half of the runs of both have the option `-b`; those of
abnfi may end at a line that needs more items. With -x half of the runs of both have the option `-x`, half of these with
what explains their notes, with hints (slow_notes.py, slow_hints.py), how the run of pegi stops (slow_stops.py), and
rejected lines (slow_refused.py), the others of a text with a fault (slow_faults.py): a grammar's, of which some bytes
are changed.
"""
import argparse
import collections
import functools
import pathlib
import random
import re
import subprocess
import sys
import tempfile

import random_abnf
import random_peg
import slow_abnf
import slow_faults
import slow_hints
import slow_notes
import slow_peg
import slow_refused
import slow_stops

TOP = pathlib.Path(__file__).resolve().parents[2]
LINES = 40
# Pieces of text that are put in a grammar's, some of them wrong in most places.
PIECES = [*(bytes([it]) for it in b"|=_-'\"[](){}/&!*+?<>%#;a9 \t\n\r"), b"::=", b"<-", b"4294967296", b"\r\n",
          b"\xC3\xA9", b"\xE2\x86\x90", b"\xEF\xBB\xBF", b"(" * 201, b"x " * 50]

# A run: the words after the grammar's name, the grammar's text, the input, and what is to come of it.
# With a budget of items the run may end at a line that needs more.
Case = collections.namedtuple("Case", "words grammar given wanted count budget", defaults=(None,))


def spoiled(r, text):
    """Returns a text with some pieces of it left out or put in the place of others."""
    for _ in range(r.choice([1, 1, 1, 2, 3])):
        at = r.randrange(len(text) + 1)
        text = text[:at] + r.choice([b"", *PIECES]) + text[at + r.choice([0, 0, 1, 2]):]
    return text


def parted(message):
    """Returns the notes at the front of a message, and the rest."""
    lines = message.splitlines(keepends=True)
    count = next((at for at, it in enumerate(lines) if not slow_notes.kind_of(it[:-1].decode("latin-1"))), len(lines))
    return b"".join(lines[:count]), b"".join(lines[count:])


def explained(r, case, start, fault_of, notes_of, hints_of):
    """Returns a run with `-x`, half of them of the spoiled text; none where that text has no fault."""
    words = [*case.words, "-x"]
    if r.random() < 0.5:
        out, message, status = case.wanted
        notes, rest = parted(message)
        reported = notes_of(case.grammar, notes, start) + hints_of(case.grammar) + rest
        return case._replace(words=words, wanted=(out, reported, status))
    text = spoiled(r, case.grammar)
    reported = fault_of(text)
    return reported and Case(words, text, case.given, (b"", reported.encode(), 2), 1)


def peg_case(r, may):
    """Returns a random run of pegi; none where its slow answer takes too long."""
    rules, given = random_peg.grammar(r), random_peg.given(r)
    start = r.choice([it[0] for it in rules] + ["X"]) if r.random() < 0.1 else None
    limit, raw = r.choice([65536] * 8 + [1, 2, 3, 5, 10]), r.random() < 0.2
    is_whole = "1" in may and r.random() < 0.3
    is_escaped = "e" in may and r.random() < 0.5
    words = ["-l", str(limit)] + ["-r"] * raw + (["-s", start] if start else []) + ["-1"] * is_whole
    words += ["--line-buffered"] * ("b" in may and r.random() < 0.5)
    budget = r.choice([1, 2, 3, 5, 10, 20]) if "d" in may and r.random() < 0.5 else None
    words += ["--escapes"] * is_escaped + (["-b", str(budget)] if budget else [])
    text = random_peg.grammar_text(r, rules)
    try:
        *wanted, count = slow_peg.answer(rules, given, limit, start, raw, is_whole, is_escaped, budget)
    except (slow_peg.TooSlow, RecursionError):
        return None
    case = Case(words, text, given, tuple(wanted), count)
    if "x" in may and r.random() < 0.5:
        out, message, status = wanted
        is_reported = status in (1, 3) and b" prints more than " not in message
        after = slow_stops.after_stop(rules, given, limit, start, is_whole) if is_reported else b""
        case = case._replace(wanted=(out, message + after, status))
        return explained(r, case, start, slow_faults.peg, functools.partial(slow_notes.peg, grammar=rules),
                         functools.partial(slow_notes.peg_hints, grammar=rules))
    return case


def printed(what, name, is_numbered, case, end, is_kept):
    """Returns what `-p`, `-H` and `-n` print in place of the answers of a run; `name` is what `-H` adds."""
    out, _, status = case.wanted
    answers = out.splitlines(keepends=True)
    derived = answers.count(b"yes\n")
    if what == "count":
        counts = b"%d derived, %d refused\n" % (derived, len(answers) - derived)
        return name + counts if status in (0, 1) else b""
    text = b""
    lines = slow_abnf.lines_of(case.given, end, is_kept)
    for number, ((line, _), answer) in enumerate(zip(lines, answers), 1):
        is_shown = what == "answers" or what == ("derived" if answer == b"yes\n" else "refused")
        head = name + b"%d:" % number if is_numbered else name
        text += head + (answer if what == "answers" else line + end * (not is_kept)) if is_shown else b""
    return text


def printed_case(r, case, end, is_kept):
    """Returns the run with some of `-p`, `-n` and `-H`, or as it is."""
    what, is_numbered = r.choice(["answers", "answers", "derived", "refused", "count", "none"]), r.random() < 0.5
    is_named = r.random() < 0.3
    words = [*case.words, *(["-p", what] if what != "answers" or r.random() < 0.2 else []), *["-n"] * is_numbered,
             *["-H"] * is_named]
    out = printed(what, b"-:" * is_named, is_numbered, case, end, is_kept)
    return case._replace(words=words, wanted=(out, *case.wanted[1:]))


def with_end(r, rules, end):
    """Returns rules whose first one derives what theirs does, and often the end of a line after it."""
    last = ("values", [end[0]])
    return [("kept-line", False, ("concat", [("name", rules[0][0]), r.choice([last, last, ("opt", last)])])), *rules]


def until_refused(given, answers, end):
    """Returns the lines of an input up to the first that these answers reject."""
    for number, answer in enumerate(answers, 1):
        if answer != b"yes\n":
            return b"".join(it + end for it in given.split(end)[:number])[:len(given)]
    return given


def abnf_case(r, may):
    """Returns a random run of abnfi; `may` has the letters of the options that it may have."""
    is_utf8, is_viable, is_nul, is_kept = (it in may and r.random() < 0.5 for it in "uwzk")
    rules = random_abnf.grammar(r)
    judged = r.choice([it[0].upper() for it in rules] + ["X", "alpha"]) if r.random() < 0.1 else None
    limit = r.choice([65536] * 8 + [5, 8])
    words = ["-l", str(limit)] + (["-s", judged] if judged else []) + ["-u", "utf8"] * is_utf8 + ["-w"] * is_viable
    is_quiet = "q" in may and r.random() < 0.2
    is_buffered = "b" in may and r.random() < 0.5
    words += ["-z"] * is_nul + ["-k"] * is_kept + ["-q"] * is_quiet + ["--line-buffered"] * is_buffered
    longest = 40 if rules in random_abnf.SHAPES else 10
    end = b"\0" if is_nul else b"\n"
    given = random_abnf.given(r, rules, judged, LINES, longest, is_utf8, end)
    if is_kept and judged is None and r.random() < 0.8:
        rules = with_end(r, rules, end)
    text = random_abnf.grammar_text(r, rules)
    asked = (limit, judged, is_utf8, is_viable, end, is_kept)
    *wanted, count = slow_abnf.answer(rules, given, *asked)
    case = Case(words, text, given, tuple(wanted), count)
    if "p" in may and wanted[2] != 2:
        case = printed_case(r, case, end, is_kept)
    seen = until_refused(given, wanted[0].splitlines(keepends=True), end) if is_quiet else given
    if is_quiet:
        case = case._replace(wanted=(b"", *slow_abnf.answer(rules, seen, *asked)[1:3]))
    if "x" in may and r.random() < 0.5:
        out, message, status = case.wanted
        if status != 2:
            notes, _ = slow_abnf.notes_on(slow_abnf.Rules(rules), judged)
            message = notes + slow_refused.after_notes(rules, seen, limit, judged, is_utf8, end, is_kept)
        hints = functools.partial(slow_hints.abnf_hints, start=judged, letters="utf8" if is_utf8 else "bytes",
                                  end=None if is_kept else end[0])
        case = case._replace(wanted=(out, message, status))
        return explained(r, case, judged, slow_faults.abnf, slow_notes.abnf, hints)
    if "d" in may and r.random() < 0.5:
        budget = r.choice([1, 3, 10, 30, 100, 4294967294])
        case = case._replace(words=[*case.words, "-b", str(budget)], budget=budget)
    return case


def is_cut(case, found):
    """Returns whether the run ended at a line that needs more than its budget, and did as it should before."""
    out, message, status = found
    end = re.search(rb"line [1-9][0-9]* needs more than ([0-9]+) items\n\Z", message)
    if case.budget is None or case.budget > 100 or end is None or int(end[1]) != case.budget:
        return False
    return status == 3 and case.wanted[0].startswith(out) and case.wanted[1].startswith(message[:end.start()])


def answer_of(program, case, file):
    """Returns both outputs and the status of a run; none of them where it does not end."""
    file.write_bytes(case.grammar)
    try:
        ran = subprocess.run([program, *case.words, file], input=case.given, capture_output=True, timeout=60)
    except subprocess.TimeoutExpired:
        return None, None, "no end"
    return ran.stdout, ran.stderr, ran.returncode


def show(program, case, found):
    """Prints a case in which the program's answer is another."""
    print(f"disagreement: {program.name} {' '.join(case.words)}")
    for what, text in (("grammar", case.grammar), ("input", case.given)):
        print(f"{what}: {text!r}")
    for what, wanted, got in zip(("output", "error output", "status"), case.wanted, found):
        print(f"{what}: wanted {wanted!r}" + ("" if wanted == got else f"\n{what}: got    {got!r}"))


def compare(program, make, count, seed, folder):
    """Compares so many cases of a program. Returns how many ended by each status; none at a disagreement."""
    done, statuses, r, file = 0, collections.Counter(), random.Random(f"{seed} {program.name}"), folder / "grammar"
    while done < count:
        case = make(r)
        if case is None:
            continue
        found = answer_of(program, case, file)
        if found != case.wanted and not is_cut(case, found):
            show(program, case, found)
            return None
        done += case.count
        statuses[found[2]] += 1
    runs = ", ".join(f"{many} of status {status}" for status, many in sorted(statuses.items()))
    total = sum(statuses.values())
    print(f"random_cases: {program.name}: {done} cases agree, in {total} runs ({runs}), seed {seed}", flush=True)
    return statuses


def main():
    words = argparse.ArgumentParser(description="Compares the programs with slow answers to random cases.")
    words.add_argument("-n", type=int, default=20000, metavar="COUNT")
    words.add_argument("-s", default="1", metavar="SEED")
    words.add_argument("-u", action="store_true", help="half of the runs of abnfi by `-u utf8`")
    words.add_argument("-w", action="store_true", help="half of the runs of abnfi by `-w`")
    words.add_argument("-z", action="store_true", help="half of the runs of abnfi by `-z`")
    words.add_argument("-k", action="store_true", help="half of the runs of abnfi by `-k`")
    words.add_argument("-p", action="store_true", help="most of the runs of abnfi by `-p`, `-n` or `-H`")
    words.add_argument("-q", action="store_true", help="some of the runs of abnfi by `-q`")
    words.add_argument("-b", action="store_true", help="half of the runs of both by `--line-buffered`")
    words.add_argument("-1", action="store_true", help="a third of the runs of pegi by `-1`")
    words.add_argument("-e", action="store_true", help="half of the runs of pegi by `--escapes`")
    words.add_argument("-d", action="store_true", help="half of the runs of both by `-b`")
    words.add_argument("-x", action="store_true", help="half of the runs of both by `-x`")
    words.add_argument("program", nargs="?", choices=["pegi", "abnfi"])
    given = words.parse_args()
    sys.setrecursionlimit(20000)
    count = given.n // 2 if given.program is None else given.n
    may = [it for it in "uwzkpqb1edx" if getattr(given, it)]
    right = True
    with tempfile.TemporaryDirectory(prefix="random_cases-") as folder:
        for name, make in (("pegi", lambda r: peg_case(r, may)),
                           ("abnfi", lambda r: abnf_case(r, may))):
            program = TOP / "bin" / name
            if given.program not in (None, name):
                continue
            if not program.exists():
                print(f"random_cases: {name}: not built: skipped")
            elif compare(program, make, count, given.s, pathlib.Path(folder)) is None:
                right = False
    return 0 if right else 1


sys.exit(main())
