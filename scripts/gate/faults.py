#!/usr/bin/env python3
"""Runs the programs of bin/ as users run them, with allocations, writes and reads that a
library lets fail (faults.c), and with a stack of 256 KB.

usage: faults.py [SWEEP ..]

The sweeps are `memory`, `writes`, `reads`, `streams`, `stack` and `bound`; all of them if none is named. Each prints
how many runs it made. A run that is not as it must be is printed, and then the status is 1. A program that is not built
is skipped, and so are the first three sweeps where there is no C compiler `cc`.
"""
import argparse
import collections
import os
import pathlib
import re
import resource
import shutil
import subprocess
import sys
import tempfile

TOP = pathlib.Path(__file__).resolve().parents[2]
STACK = 256 * 1024
# So many growths at most make the list of a program's words, beside one for each word before the grammar's. The list
# asks first for all that it will need, and where that fails it asks again, so the run can go on.
GROWTHS_OF_WORDS = 7

# A run: its name, the program and its words, the grammar, the input, the texts of the units or lines, the error output,
# and the status.
Run = collections.namedtuple("Run", "name program words grammar given texts reported status")
Ended = collections.namedtuple("Ended", "out err status refused left", defaults=[None])


def peg(name, grammar, given, texts, reported=b"", status=0, words=()):
    return Run(name, "pegi", list(words), grammar, given, texts, reported, status)


def abnf(name, grammar, given, texts, reported=b"", status=0, words=()):
    return Run(name, "abnfi", list(words), grammar, given, texts, reported, status)


def taken(name, text, texts, reported=b"", status=0, words=()):
    return Run(name, "abnfx", list(words), text, b"", texts, reported, status)


def compared(name, old, new, texts, reported=b"", status=0, words=()):
    return Run(name, "abnfd", [*words, "old"], new, old, texts, reported, status)


def listed(name, grammar, texts, reported=b"", status=0, words=()):
    return Run(name, "abnfg", list(words), grammar, b"", texts, reported, status)


# Names of runs of abnfi by a grammar that counts how often something nullable is repeated: they have no automaton.
NO_AUTOMATON = {"a counted repetition of an option"}
# Names of runs of pegi with a unit of one byte: its text is kept for the next ones where there is memory.
UNITS_OF_A_BYTE = {"a word replaced", "a stop explained", "units run at line feeds"}

PRINT, CHECK = ("-m", "print"), ("-m", "check")
YES, NO = b"yes\n", b"no\n"
USERNAME = peg("a word replaced", b'start <- "username" { USER } / < . > { yytext }', b"a username\n",
               [b"a\n", b" \n", b"USER\n", b"\n\n"])
LINE_UNITS = peg("units run at line feeds", b"line <- < [a-z]* > '\\n' { yytext }", b"ab\n\nc\n",
                 [b"ab\n", b"\n", b"c\n"], words=["--line-buffered"])
WORDS = abnf("words of letters", b"word = 1*ALPHA", b"ab\nA1\n\nZ", [YES, NO, NO, YES], status=1)
REFUSED = b"A <- ('' / 'b')* C\nD <- 'd'"
REFUSALS = b"rule 'C' used but not defined\nrule 'D' defined but not used\npossible infinite loop in rule 'A'\n"
VIABLE = abnf("words of letters, and how far the others go", b"word = 1*ALPHA", b"ab\nA1\n\nZ",
              [YES, b"no 1\n", b"no 0\n", YES], status=1, words=["-w"])
NOTED = peg("a grammar that notes refuse", REFUSED, b"b", [], REFUSALS, 2)
CHECKED = peg("the same grammar checked", REFUSED, b"b", [], REFUSALS, 2, words=CHECK)
PROSE = b"a = <any text> / b\nb = \"x\""
NOTES = b"prose in rule 'a'\nrule 'a' defined but not used\n"
ABNF_NOTED = abnf("notes before the answers", PROSE, b"X\n", [YES], NOTES, words=["-s", "b"])
ABNF_CHECKED = abnf("the same grammar in ABNF checked", PROSE, b"X\n", [], NOTES, words=[*CHECK, "-s", "b"])
EXPLAINED = peg("a fault explained", b"S <- 'a' | 'b'\n", b"a", [],
                b"line 1: syntax error\n  S <- 'a' | 'b'\n           ^\n  column 10: expected an element, "
                b'"&", "!", "?", "*", "+", "/" or the end of the text\n  alternatives have "/" between them\n', 2,
                words=["-x"])
FAULTS_EXPLAINED = peg("two faults explained", b"S <- |\nT <- )\n", b"a", [],
                       b"line 1: syntax error\n  S <- |\n       ^\n  column 6: expected an element, "
                       b'"&", "!", "/" or the end of the text\n  alternatives have "/" between them\n'
                       b"line 2: syntax error\n  T <- )\n       ^\n  column 6: expected an element, "
                       b'"&", "!", "/" or the end of the text\n', 2, words=["-x"])
ABNF_EXPLAINED = abnf("a fault of ABNF explained", b'my_rule = "x"\n', b"a\n", [],
                      b'line 1: syntax error\n  my_rule = "x"\n    ^\n  column 3: expected "=" or "=/"\n'
                      b'  names hold letters, digits and "-"\n', 2, words=["-x"])
ABNF_FAULTS_EXPLAINED = abnf("two faults of ABNF explained", b"a = |\nb = )\n", b"a\n", [],
                             b"line 1: syntax error\n  a = |\n      ^\n  column 5: expected an element\n"
                             b'  alternatives have "/" between them\n'
                             b"line 2: syntax error\n  b = )\n      ^\n  column 5: expected an element\n", 2,
                             words=["-x"])
AGAIN_EXPLAINED = peg("notes explained", b"S <- 'a' U\nT <- 'b'\nS <- T\n", b"a", [],
                      b"rule 'S' redefined\n  line 1: 'S' is defined\n  line 3: 'S' is defined again\n"
                      b"rule 'U' used but not defined\n  line 1: used in rule 'S'\n"
                      b"rule 'T' defined but not used\n  line 2: 'T' is defined\n", 2, words=["-x"])
EARLY_EXPLAINED = abnf("notes of ABNF explained", b's = "x"\nT =/ s / <a text>\n', b"X\n", [YES],
                       b"rule 'T' extended before it is defined\n  line 2: 'T' begins with \"=/\"\n"
                       b"prose in rule 'T'\n  line 2: <a text>\n"
                       b"rule 'T' defined but not used\n  line 2: 'T' is defined\n", words=["-x"])
REACHED_EXPLAINED = abnf("a reached name explained", b"s = t\nt = s / u\n", b"X\n", [],
                         b"rule 'u' used but not defined\n  line 2: used in rule 't'\n"
                         b"  reached by 's' > 't' > 'u'\n", 2, words=["-x"])
STOP_EXPLAINED = peg("a stop explained", b"S <- 'a' ('=' [0-9]+ ';')* {x}", b"a=12,", [b"x\n"],
                     b"no match at byte 1\n  byte 4, line 1, column 5, in the unit at byte 0\n  a=12,\n      ^\n"
                     b'  expected ";" in S\n  expected [0-9] in S\n', 1, words=["-x"])
REFUSED_EXPLAINED = abnf("refused lines explained", b'd = 2DIGIT "-" 2DIGIT\n', b"12x3\n12-34\n12-\n123456\n",
                         [NO, YES, NO],
                         b'line 1, letter 3: expected "-" in d\n  12x3\n    ^\n'
                         b"line 3 ends too early: expected DIGIT in d\n  12-\n     ^\n"
                         b"line 4 longer than 5 bytes\n  -l allows at most 16777216\n", 3, words=["-x", "-l", "5"])
HINTED = abnf("hints on a grammar", b'a = "x" b / "y"\nb = %x39-30\n', b"y\n", [YES],
              b"rule 'b' derives nothing\n  line 2: 'b' is defined\n"
              b"reversed numbers in rule 'b'\n  line 2: %x39-30 derives nothing\n", words=["-x"])
PEG_HINTED = peg("a hint on a choice", b"S <- 'a' / 'ab' {x}", b"a", [],
                 b"alternative never taken in rule 'S'\n  line 1: \"ab\" after \"a\"\n", words=["-x"])
PRINTED = peg("a grammar printed", b"A<-('x')/[b-da^-]*", b"", [b'A <- "x" / [\\055\\136a-d]*\n'], words=PRINT)
ALTERNATIVES = b'k = %s"Ab"\n  / "cd"\nK =/ 2*3%x78'
LINES = b"Ab\nab\nCD\nxx\nxxxx\n"
ABNF_PRINTED = abnf("a grammar in ABNF printed", ALTERNATIVES, b"", [b'k = %s"Ab" / "cd" / 2*3%x78\n'], words=PRINT)

TEXT = (b"Rules\n\n  a = b /\n      <x>\n\n\nOne [Page 1]\n\f\nTwo 2001\n\n"
        b'      / c\n  b = "x" ; y\n  B = "X"\nx = 1, 2\n')
TAKEN_REPORTED = b"grammar:14: not ABNF: line 14: syntax error\ngrammar:11: 'c' is not defined\n"
TAKEN = taken("the rules of a text", TEXT, [b"; grammar:3\na = b /\n    <x>\n    / c\n", b'b = "x" ; y\n'],
              TAKEN_REPORTED, 1)
TAKEN_PRINTED = taken("the rules of a text, printed", TEXT.replace(b"x = 1, 2", b"c = a"),
                      [b'a = b / <x> / c\nb = "x"\nc = a\n'], words=["-c"])
TAKEN_LISTED = taken("the list of the rules of a text", TEXT, [b"grammar:3: 'a' stands\n", b"grammar:12: 'b' stands\n",
                     b"grammar:13: 'B' is given at grammar:12\n"], TAKEN_REPORTED, 1, words=["-l"])
NONE_TAKEN = taken("a text without rules", b"Rules\n", [], b"no rules found\n", 1)

COMPARED = compared("rules that differ", b's = 1*ALPHA "\\"\n', b't = 1*2ALPHA "\\"\nu = s\ns = "x"\n',
                    [b'differ\n< "AAA\\x5C"\n> none\n'], b"new: rule 'u' defined but not used\n", 1, words=["-t", "t"])
COMPARED_EXPLAINED = compared("lines of one rule alone explained", b's = "ab"\n', b's = "a" / "b"\n',
                              [b'differ\n< "AB"\n> "A"\n'
                               b'new, letter 2: expected the end of the line\n  AB\n   ^\n'
                               b'old ends too early: expected "B" of "ab" in s\n  A\n   ^\n'], status=1, words=["-x"])
ALIKE = compared("rules that derive the same lines", b's = "a" s / "b"\n', b's = *"a" "b"\n', [b"same\n"])
REJECTED = compared("grammars that are rejected", b"s = <any>\n", b"s : x\n", [],
                    b"old: prose in rule 's'\nnew: line 1: syntax error\n", 2)
BY_NAME = compared("all rules by name", b's = 1*ALPHA\nt = "x"\n', b'S = *ALPHA\nu = "y"\n',
                   [b"s: differ\n", b"< t\n", b"> u\n"],
                   b"old: rule 't' defined but not used\nnew: rule 'u' defined but not used\n", 1, words=["-a"])

LISTED = listed("lines of a rule", b'd = 1*2BIT "x"\nu = d\n', [b"0X\n", b"0x\n", b"1X\n", b"1x\n", b"00X\n"],
                b"rule 'u' defined but not used\n", words=["-c", "5"])
ALL_LISTED = listed("all lines of a rule", b's = "a" / %s"bc"\n', [b"A\0", b"a\0", b"bc\0"], words=["-z"])
DRAWN = listed("lines by lot", b's = %s"bc"\n', [b"bc\n"] * 3, words=["-m", "random", "-c", "3", "-l", "9"])
MISSED = listed("rejected lines explained", b's = "0"\n', [b"\n", b"!\n", b"0!\n"],
                b'line 1 ends too early: expected "0" in s\nline 2, letter 1: expected "0" in s\n  !\n  ^\n'
                b'line 3, letter 2: expected the end of the line\n  0!\n   ^\n', words=["-m", "miss", "-x"])
NONE_LISTED = listed("a rule without lines", b's = "a" s\n', [], status=1)
UNLISTED = listed("a grammar whose lines are not listed", b's = <any>\n', [], b"prose in rule 's'\n", 2)

# The runs in which each allocation fails.
GROWING = [
    USERNAME,
    LINE_UNITS,
    peg("a capture that rules share", b"S <- B <'a'> B <> B\nB <- {yytext.}", b"a", [b".\na.\n.\n"]),
    PRINTED,
    peg("an action met four times in a unit", b"S <- A A 'x'\nA <- B B\nB <- {b}", b"x", [b"b\nb\nb\nb\n"]),
    WORDS,
    # the file of the grammar is named again, as that of the input
    abnf("a file of the input", b"a = *%x20-7E\n", b"", [YES], words=["grammar"]),
    peg("a file of the input", b"a <- .+ {x}", b"", [b"x\n"], words=["grammar"]),
    VIABLE,
    abnf("an ambiguous rule", b's = s s / "a" / ""', b"aaa\n\nb\n", [YES, YES, NO], status=1),
    abnf("a counted repetition of an option", b's = 2*3["a"] "b"', b"aab\nab\nac\n", [YES, YES, b"no 1\n"], status=1,
         words=["-w"]),
    abnf("lines again whose cells were filled", b's = "a" s / "b" / "c" s "d"', b"aab\nccbdd\naab\nccbdd\ncb\n",
         [YES, YES, YES, YES, NO], status=1),
    abnf("alternatives added to a rule", ALTERNATIVES, LINES, [YES, NO, YES, YES, NO], status=1),
    ABNF_PRINTED,
    CHECKED,
    ABNF_CHECKED,
    EXPLAINED,
    FAULTS_EXPLAINED,
    ABNF_EXPLAINED,
    ABNF_FAULTS_EXPLAINED,
    AGAIN_EXPLAINED,
    EARLY_EXPLAINED,
    REACHED_EXPLAINED,
    TAKEN,
    TAKEN_PRINTED,
    TAKEN_LISTED,
    NONE_TAKEN,
    COMPARED,
    COMPARED_EXPLAINED,
    ALIKE,
    REJECTED,
    BY_NAME,
    LISTED,
    ALL_LISTED,
    DRAWN,
    MISSED,
    NONE_LISTED,
    UNLISTED,
    STOP_EXPLAINED,
    REFUSED_EXPLAINED,
    HINTED,
    PEG_HINTED,
]


# The runs whose writes fail.
WRITTEN = [USERNAME, WORDS, NOTED, ABNF_NOTED, PRINTED, ABNF_PRINTED, CHECKED, ABNF_CHECKED, EXPLAINED, ABNF_EXPLAINED,
           HINTED, TAKEN, TAKEN_PRINTED, TAKEN_LISTED, NONE_TAKEN, COMPARED, ALIKE, REJECTED,
           LISTED, ALL_LISTED, DRAWN, NONE_LISTED, UNLISTED]


class Tools:
    """The programs, the library, and a folder for grammars."""

    def __init__(self, folder):
        self.folder = pathlib.Path(folder)
        self.library, self.runs, self.wrong = None, 0, 0

    def has(self, program):
        return (TOP / "bin" / program).exists()

    def build(self):
        """Makes the library; False where there is no compiler."""
        self.library = self.folder / "faults.so"
        words = ["cc", "-shared", "-fPIC", "-O1", "-o", self.library, TOP / "scripts/gate/faults.c"]
        return bool(shutil.which("cc")) and bool(subprocess.run(words, check=True))

    def run(self, run, **faults):
        """Runs a program with these faults, and returns how it ended."""
        reported, left, grammar = self.folder / "reported", self.folder / "left", self.folder / "grammar"
        reported.unlink(missing_ok=True)
        left.unlink(missing_ok=True)
        grammar.write_bytes(run.grammar)
        (self.folder / "old").write_bytes(run.given)
        environment = {"LD_PRELOAD": str(self.library), "FAULT_REPORTED": str(reported), "FAULT_LEFT": str(left)}
        environment |= {f"FAULT_{it}": str(n) for it, n in faults.items()}
        ran = subprocess.run([TOP / "bin" / run.program, *run.words, grammar.name], cwd=self.folder, input=run.given,
                             capture_output=True, env=os.environ | environment, timeout=120, check=False)
        blocks = int(left.read_text()) if left.exists() else -1
        return Ended(ran.stdout, ran.stderr, ran.returncode, reported.exists(), blocks)

    def expect(self, run, ended, holds, what):
        """Counts a run, and prints it if it is not as it must be, or if some memory was not given back."""
        self.runs += 1
        if not holds or ended.left:
            self.wrong += 1
            print(f"wrong: {run.name}, {what}: {ended}")


def whole(run):
    return b"".join(run.texts)


def is_as_stated(run, ended):
    return (ended.out, ended.err, ended.status) == (whole(run), run.reported, run.status)


def may_go_on(run, number):
    """Returns whether a run may go on without that growth. If an allocation of the automaton fails, Earley's sets
    answer. If one for the copy of a line fails, the window joins its two pieces. If one for the lines of notes fails,
    they are written by pieces. A unit that is kept may not be asked for."""
    judges = run.program == "abnfi" and "-m" not in run.words or run.program in ("abnfd", "abnfg") and "-x" in run.words
    has_automaton = judges and run.name not in NO_AUTOMATON
    has_notes = bool(run.reported) and "-x" not in run.words and run.program != "abnfx"
    explains = run.program == "pegi" and "-x" in run.words and run.status == 0
    keeps_units = explains or run.name in UNITS_OF_A_BYTE
    return has_automaton or has_notes or keeps_units or number <= len(run.words) + GROWTHS_OF_WORDS


# The message in which a run on an input ends, and the line after one that is not explained.
STOP = re.compile(rb"^(?:no match at byte|unit at byte|line \d+ longer than) .*\n", re.MULTILINE)
LACKS = b"  not explained: out of memory\n"


def explained_prefixes(reported):
    """Returns what may stand of messages that are explained where an allocation for the rest fails: the first ones
    before that in which the run ends, the last of them perhaps without what explains it."""
    lines = STOP.split(reported)[0].splitlines(keepends=True)
    messages = [at for at, line in enumerate(lines) if not line.startswith(b"  ")]
    counts = {0, *messages, *(at + 1 for at in messages), len(lines)}
    return [b"".join(lines[:count]) for count in sorted(counts)]


def not_explained(run):
    """Returns what may stand of the explanations of rejected lines where there is no memory for one of them: those
    before it, and a line in its place. Of `pegi` it returns all up to the message in which the run ends, and a line."""
    lines = run.reported.splitlines(keepends=True)
    if run.program == "pegi":
        return [b"".join(lines[:at + 1]) + LACKS for at, line in enumerate(lines) if STOP.match(line)]
    heads = [(at, re.match(rb"line (\d+)(,| ends too early:)", line)) for at, line in enumerate(lines)]
    return [b"%sline %s: no\n" % (b"".join(lines[:at]), head[1]) + LACKS for at, head in heads if head]


def refuse_each(tools, run, **more):
    """Lets each growth of a run fail in turn. Returns how many it has, and how many of them were retried."""
    fronts = [b"".join(run.texts[:k]) for k in range(len(run.texts) + 1)]
    number, good = 1, 0
    messages = explained_prefixes(run.reported) if "-x" in run.words else [b""]
    messages += [run.reported] * (run.program in ("abnfx", "abnfg"))
    cut = not_explained(run) if "-x" in run.words else []
    stops = [it + b"out of memory\n" for it in messages + cut * (run.program == "abnfi")]
    # after lines that are not explained the message in which a run ends stands without its explanation
    last = b"".join(STOP.findall(run.reported)) if run.program == "abnfi" else b""
    while (ended := tools.run(run, GROWTH=number, **more)).refused:
        right = ended.out in fronts and ended.err in stops and ended.status == 5
        if is_as_stated(run, ended) and may_go_on(run, number):
            right, good = True, good + 1
        if ended.err in [it + last for it in cut]:
            right = (ended.out, ended.status) == (whole(run), run.status)
        tools.expect(run, ended, right, f"growth {number} refused {more}")
        number += 1
    tools.expect(run, ended, number > 1 and is_as_stated(run, ended), "no growth refused")
    return number - 1, good


def memory(tools):
    """Lets each growth fail in turn, alone and then with all after it."""
    for run in (it for it in GROWING if tools.has(it.program)):
        growths, good = refuse_each(tools, run)
        refuse_each(tools, run, LASTS=1)
        print(f"  {run.name}: {growths} growths" + f", {good} retried" * bool(good))


def writes(tools):
    """Each write short, and each output failing after each number of bytes."""
    for run in (it for it in WRITTEN if tools.has(it.program)):
        for most in (1, 2, 3):
            ended = tools.run(run, WRITE=most)
            tools.expect(run, ended, is_as_stated(run, ended), f"writes of {most} bytes")
        for room in range(len(whole(run))):
            for most in (1, 4096):
                ended = tools.run(run, ROOM=f"1:{room}", WRITE=most)
                right = ended[:3] == (whole(run)[:room], run.reported + b"write error\n", 4)
                tools.expect(run, ended, right, f"room for {room} bytes of output")
        for room in range(len(run.reported)):
            ended = tools.run(run, ROOM=f"2:{room}", WRITE=7)
            tools.expect(run, ended, ended[:3] == (b"", run.reported[:room], 4), f"room for {room} bytes of messages")


def judged_of(run, size):
    """The answers to the lines whose LF lies in the first bytes of the input, or the texts of such units."""
    return b"".join(run.texts[:run.given[:size].count(b"\n")])


def reads(tools):
    """Each read failing, of the grammar and of the input, and reads of one to three bytes."""
    for run in (it for it in [USERNAME, LINE_UNITS, WORDS, ABNF_NOTED] if tools.has(it.program)):
        for most in (1, 2, 3):
            ended = tools.run(run, PIECE=most)
            tools.expect(run, ended, is_as_stated(run, ended), f"reads of {most} bytes")
        for size in range(len(run.given) + 1):
            out = judged_of(run, size) if run.program == "abnfi" or run is LINE_UNITS else b""
            for most in (1, 4096):
                ended = tools.run(run, INPUT=size, PIECE=most)
                right = ended[:3] == (out, run.reported + b"read error\n", 4)
                tools.expect(run, ended, right, f"{size} bytes of input")
        number = 1
        while (ended := tools.run(run, READ=number, PIECE=3)).refused:
            unread = ended[:3] == (b"", b"cannot read the grammar\n", 4)
            is_part = whole(run).startswith(ended.out)
            begun = ended.err == run.reported + b"read error\n" and is_part and ended.status == 4
            tools.expect(run, ended, unread or begun, f"read {number} fails")
            number += 1
    text_reads(tools)


def text_reads(tools):
    """Each read of a text failing, and reads of one to three bytes."""
    unread = {"abnfx": [b"cannot read grammar\n"],
              "abnfd": [b"old: cannot read the grammar\n", b"new: cannot read the grammar\n"],
              "abnfg": [b"cannot read the grammar\n"]}
    for run in (it for it in [TAKEN, TAKEN_PRINTED, COMPARED, LISTED] if tools.has(it.program)):
        for most in (1, 2, 3):
            ended = tools.run(run, PIECE=most)
            tools.expect(run, ended, is_as_stated(run, ended), f"reads of {most} bytes")
        number = 1
        while (ended := tools.run(run, READ=number, PIECE=3)).refused:
            right = (ended.out, ended.status) == (b"", 4) and ended.err in unread[run.program]
            tools.expect(run, ended, right, f"read {number} fails")
            number += 1


# Streams at which the system itself fails, as a shell gives them to a program, and the message of the run.
STREAMS = [
    ("an output on a full disk", '"$0" "$1" < "$2" > /dev/full', b"write error\n"),
    ("a closed output", '"$0" "$1" < "$2" >&-', b"write error\n"),
    (
        "an output whose reader is gone",
        '{ "$0" "$1" < "$2"; echo $? > "$3"; } | :; read s < "$3"; exit $s',
        b"write error\n",
    ),
    ("a closed input", '"$0" "$1" <&-', b"read error\n"),
    ("a folder as the input", '"$0" "$1" < /', b"read error\n"),
    ("a folder as the grammar", '"$0" / < "$2"', b"cannot read the grammar\n"),
    ("no grammar", '"$0" "$1.none" < "$2"', b"cannot read the grammar\n"),
]


def streams(tools):
    """Streams that are full, closed, gone, or no files, with more output than a pipe holds."""
    given, grammar, status = (tools.folder / it for it in ("input", "grammar", "status"))
    given.write_bytes(b"ab\n" * 200000)
    for program, text in (("pegi", b"S <- . {yytext}"), ("abnfi", b"word = 1*ALPHA")):
        grammar.write_bytes(text)
        for name, line, reported in STREAMS if tools.has(program) else []:
            ran = subprocess.run(["sh", "-c", line, TOP / "bin" / program, grammar, given, status], capture_output=True,
                                 timeout=120, check=False)
            ended = Ended(ran.stdout, ran.stderr, ran.returncode, False)
            tools.expect(peg(program, b"", b"", []), ended, ended[:3] == (b"", reported, 4), name)


def deep_grammars():
    """Rules that stand in one another as deep as an input, or the grammar, is long."""
    yield peg("a rule that calls itself at each byte", b"S <- 'a' S / 'b' {x}", b"a" * 60000 + b"b", [b"x\n"])
    names = b"".join(b"R%d<-R%d\n" % (n, n + 1) for n in range(50000))
    yield peg("a chain of 50,000 rules", names + b"R50000<-'a'{x}", b"a", [b"x\n"])
    names = b"".join(b"R%d=R%d\n" % (n, n + 1) for n in range(50000))
    yield abnf("a chain of 50,000 rules, ABNF", names + b'R50000="a"', b"a\nb\n", [YES, NO], status=1)
    yield abnf("a rule that calls itself at each byte, ABNF", b's = "a" s / "b"', b"a" * 2000 + b"b\n", [YES])
    yield abnf("the same from the left, ABNF", b's = s "a" / "b"', b"b" + b"a" * 60000 + b"\n", [YES])


def hostile_grammars():
    """Grammars at the limits of brackets and of length."""
    words = [b"%05d" % n for n in range(50000)]
    yield peg("200 brackets", b"S <- " + b"(" * 200 + b"'a' {x}" + b")" * 200, b"aa", [b"x\n"] * 2)
    options = b"S <- " + b"('a' " * 200 + b")? " * 200 + b"{x}"
    yield peg("200 options, one in another", options, b"a" * 150, [b"x\n"] * 2)
    yield peg("349,000 options in one rule", b"S <- " + b".? " * 349000 + b"{x}", b"abc", [b"x\n"] * 2)
    choice = b"S <- " + b"/".join(b"'%s'" % it for it in words) + b" {x}"
    yield peg("50,000 literals in one choice", choice, b"4999900000", [b"x\n"])
    nested = b"s = " + b"(" * 200 + b'"a"' + b")" * 200
    yield abnf("200 brackets, ABNF", nested, b"a\nb", [YES, NO], status=1)
    options = b"s = " + b'["a" ' * 200 + b"]" * 200
    lines = b"a" * 150 + b"\n\n" + b"a" * 201
    yield abnf("200 options, one in another, ABNF", options, lines, [YES, YES, NO], status=1)
    yield abnf("349,000 repetitions in one rule, and no line", b"s=" + b"*b " * 349000 + b'\nb="b"', b"", [])
    repetitions = b"s=" + b"*b " * 20000 + b'\nb="b"'
    yield abnf("20,000 repetitions in one rule", repetitions, b"bb\nc\n", [YES, NO], status=1)
    choice = b"s=" + b"/".join(b'"%s"' % it for it in words)
    yield abnf("50,000 literals in one choice, ABNF", choice, b"49999\n50000\n", [YES, NO], status=1)


def small_stack():
    resource.setrlimit(resource.RLIMIT_STACK, (STACK, STACK))


def text_of(file, other):
    return file.read_bytes() if file.exists() else other


def example(tools, folder):
    """Runs an example on a small stack."""
    if not tools.has((folder / "run.sh").read_text().split()[0]):
        return
    path = {"PATH": f"{TOP / 'bin'}:{os.environ['PATH']}"}
    ran = subprocess.run(["sh", "run.sh"], cwd=folder, capture_output=True, env=os.environ | path,
                         preexec_fn=small_stack, check=False)
    ended = Ended(ran.stdout, ran.stderr, ran.returncode, False)
    texts, reported = [text_of(folder / "printed.txt", b"")], text_of(folder / "reported.txt", b"")
    run = Run(f"examples/{folder.name}", "", [], b"", b"", texts, reported, int(text_of(folder / "status", b"0")))
    tools.expect(run, ended, is_as_stated(run, ended), "a stack of 256 KB")


def run_on_small_stack(tools, run, mode):
    """Runs a grammar on a small stack in a mode; the status is None where the run does not end."""
    file = tools.folder / "grammar"
    file.write_bytes(run.grammar)
    try:
        ran = subprocess.run([TOP / "bin" / run.program, "-m", mode, file], input=run.given, capture_output=True,
                             preexec_fn=small_stack, timeout=120, check=False)
    except subprocess.TimeoutExpired:
        return Ended(b"", b"", None, False)
    return Ended(ran.stdout, ran.stderr, ran.returncode, False)


def hostile(tools, run):
    """Runs a grammar on a small stack in each mode."""
    for mode in ("run", "check", "print"):
        ended = run_on_small_stack(tools, run, mode)
        right = is_as_stated(run, ended) if mode == "run" else (ended.err, ended.status) == (b"", 0)
        tools.expect(run, ended._replace(out=ended.out[:500]), right, f"a stack of 256 KB, mode {mode}")


def stack(tools):
    """The examples, and hostile grammars, on a small stack."""
    for folder in sorted((TOP / "examples").iterdir()):
        example(tools, folder)
    for run in [*hostile_grammars(), *deep_grammars()]:
        if tools.has(run.program):
            hostile(tools, run)


# Bytes of memory that the system gives to a run.
BOUND = 20_000_000
# Runs whose sets of items need more, and how many bytes they get.
BOUNDED = [
    (abnf("a line of 10,001 letters", b's = "a" s "a" / "a"', b"a\n" + b"a" * 10001 + b"\n", [YES],
          b"out of memory\n", 5, words=["-w"]), BOUND),
    (abnf("a line whose explanation needs as much again", b's = "a" s "a" / "a"', b"a\n" + b"a" * 2000 + b"b\na\n",
          [YES, NO, YES], b"line 2: no\n" + LACKS, 1, words=["-x"]), 25_000_000),
]


def run_within(tools, run, size):
    """Runs a program to which the system gives so many bytes of memory."""
    file = tools.folder / "grammar"
    file.write_bytes(run.grammar)
    ran = subprocess.run([TOP / "bin" / run.program, *run.words, file], input=run.given, capture_output=True,
                         preexec_fn=lambda: resource.setrlimit(resource.RLIMIT_AS, (size, size)), timeout=120,
                         check=False)
    return Ended(ran.stdout, ran.stderr, ran.returncode, False)


def bound(tools):
    """Lines whose judging, and whose explanation, needs more memory than the system gives."""
    for run, size in BOUNDED:
        if tools.has(run.program):
            ended = run_within(tools, run, size)
            tools.expect(run, ended, is_as_stated(run, ended), f"{size} bytes of memory")


def main():
    sweeps = {"memory": memory, "writes": writes, "reads": reads, "streams": streams, "stack": stack,
              "bound": bound}
    words = argparse.ArgumentParser(description="Refuses memory, writes, reads and stack to the programs.")
    words.add_argument("sweep", nargs="*", choices=[*sweeps, []])
    wanted = words.parse_args().sweep or list(sweeps)
    with tempfile.TemporaryDirectory(prefix="faults-") as folder:
        tools = Tools(folder)
        for program in ("pegi", "abnfi", "abnfx", "abnfd", "abnfg"):
            if not tools.has(program):
                print(f"faults: {program}: not built: skipped")
        built = tools.build()
        for sweep in wanted:
            before = tools.runs
            if sweep in ("memory", "writes", "reads") and not built:
                print(f"faults: {sweep}: no C compiler cc: skipped")
                continue
            sweeps[sweep](tools)
            print(f"faults: {sweep}: {tools.runs - before} runs", flush=True)
    print(f"faults: {tools.wrong} wrong of {tools.runs} runs")
    return 1 if tools.wrong else 0


sys.exit(main())
