#!/usr/bin/env python3
"""Judges lines by grammars of a megabyte that are made to cost much, and lines of 16 MB, and compares the answers with
those that the grammars were made for.

usage: hostile_grammars.py [PROGRAM]

PROGRAM is a build of abnfi; bin/abnfi if it is not given. Prints of each case the processor time in seconds and the
greatest memory in MB. A case that takes more than two minutes, or ends with another answer or status, is reported, and
then the status is 1.
"""
import collections
import os
import pathlib
import subprocess
import sys
import tempfile

HERE = pathlib.Path(__file__).resolve().parent
SIZE, LINE = 1_000_000, 16_777_216
SECONDS, PART = 120, 65_536

# What a case is of, the words before the grammar's name, the grammar, its lines in pieces, each with how often it
# stands there, the answers and the status.
Case = collections.namedtuple("Case", "name words grammar lines answers status")
LONG = ["-l", str(LINE)]


def filled(front, pieces, between=b" / "):
    """Returns a rule of so many alternatives as a megabyte holds."""
    return front + between.join(pieces) + b"\n"


def cases():
    count = SIZE // 12
    words = [b'"%06d"' % it for it in range(count)]
    yield Case("keywords", [], filled(b"s = ", words), [(b"000000\n%06d\n%06d\nx\n" % (count - 1, count), 1)],
               b"yes\nyes\nno\nno\n", 1)
    texts = b"".join(it.strip(b'"') for it in words)
    yield Case("keywords, repeated", LONG, b"s = *( " + b" / ".join(words) + b" )\n",
               [(texts + b"\n" + texts + b"0\n", 1)], b"yes\nno\n", 1)
    words = [b"w%d" % it for it in range(count)]
    texts = b"".join(words)
    yield Case("keywords that begin others, repeated", LONG, b"s = *( " + b" / ".join(b'"%s"' % it for it in words)
               + b" )\n", [(texts + b"\n" + texts + b"x\n", 1)], b"yes\nno\n", 1)
    count = SIZE // 16
    chain = b"".join(b"r%d = r%d\n" % (it, it + 1) for it in range(count))
    yield Case("a chain of names", [], chain + b'r%d = "a"\n' % count, [(b"a\nb\na\n", 1)], b"yes\nno\nyes\n", 1)
    yield Case("a ring of names", [], chain + b'r%d = r0 / "a"\n' % count, [(b"a\nb\na\n", 1)], b"yes\nno\nyes\n", 1)
    count = SIZE // 20
    left = b"".join(b'r%d = r%d "a"\n' % (it, it + 1) for it in range(count))
    yield Case("left recursion through all rules", [], left + b'r%d = r0 / "b"\n' % count,
               [(b"b\nb", 1), (b"a", count), (b"\nba\n", 1)], b"no\nyes\nno\n", 1)
    count = SIZE // 40
    turns = [b'*("a" / "b") "a" %d("a" / "b")' % (it % 20) for it in range(count)]
    yield Case("overlapping counts", [], filled(b"s = ", turns), [(b"ba\nbb\nabab\n", 1), (b"b", 50), (b"\n", 1)],
               b"yes\nno\nyes\nno\n", 1)
    count = SIZE // 10
    options = filled(b"s = ", [b'["a"]'] * count, b" ")
    yield Case("options in a row", [], options, [(b"aaaa\n\nb\n", 1)], b"yes\nyes\nno\n", 1)
    yield Case("a text of a megabyte", LONG, b's = "' + b"a" * SIZE + b'"\n',
               [(b"a", SIZE), (b"\n", 1), (b"A", SIZE - 1), (b"\n", 1), (b"A", SIZE), (b"\n", 1)],
               b"yes\nno\nyes\n", 1)
    yield Case("letters, lines of 16 MB", LONG, b"w = 1*ALPHA\n",
               [(b"a", LINE), (b"\n", 1), (b"a", LINE - 1), (b"1\n", 1), (b"a", LINE), (b"\n", 1)],
               b"yes\nno\nyes\n", 1)
    yield Case("right recursion, lines of 16 MB", LONG, b's = "a" s / "b"\n',
               [(b"a", LINE - 1), (b"b\n", 1), (b"a", LINE), (b"\n", 1)], b"yes\nno\n", 1)
    yield Case("brackets, a line of 16 MB", LONG, b's = "[" *s "]"\n',
               [(b"[", LINE // 2), (b"]", LINE // 2), (b"\n[]\n", 1)], b"yes\nyes\n", 0)
    yield Case("a line of 16 MB and a byte", LONG, b"w = 1*ALPHA\n", [(b"ab\n", 1), (b"a", LINE + 1), (b"\n", 1)],
               b"yes\n", 3)


def write(pieces, file):
    """Writes pieces; a part at a time, since what is held here would count as memory of the program."""
    with open(file, "wb") as out:
        for piece, count in pieces:
            while count > 0:
                out.write(piece * min(count, PART))
                count -= PART


def run(program, case, folder):
    """Runs a program on a case. Returns its answers, its status, its processor time and its greatest memory in MB."""
    grammar, lines, answers = (folder / it for it in ("grammar", "lines", "answers"))
    grammar.write_bytes(case.grammar)
    write(case.lines, lines)
    words = ["timeout", str(SECONDS), program, *case.words, grammar]
    with open(lines, "rb") as given, open(answers, "wb") as out:
        child = subprocess.Popen(words, stdin=given, stdout=out, stderr=subprocess.DEVNULL)
        _, status, used = os.wait4(child.pid, 0)
    child.returncode = os.waitstatus_to_exitcode(status)
    return answers.read_bytes(), child.returncode, used.ru_utime + used.ru_stime, used.ru_maxrss / 1000


def main(programs):
    program, is_right = programs[0] if programs else str(HERE.parents[1] / "bin" / "abnfi"), True
    with tempfile.TemporaryDirectory(prefix="hostile-") as folder:
        for case in cases():
            answers, status, took, memory = run(program, case, pathlib.Path(folder))
            print(f"| {case.name} | {took:.1f} | {memory:,.0f} |", flush=True)
            if (answers, status) != (case.answers, case.status):
                print(f"WRONG: {case.name}: status {status}, answers {answers[:200]!r}")
                is_right = False
    return 0 if is_right else 1


sys.exit(main(sys.argv[1:]))
