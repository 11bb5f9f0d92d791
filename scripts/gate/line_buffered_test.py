#!/usr/bin/env python3
"""Tests `--line-buffered` of abnfi and pegi: each answer, or the text of each unit, must come before the next line is
sent. It asks through pipes, on a terminal, and by a coprocess of bash.

usage: line_buffered_test.py

A program that is not built is skipped. Without bash the coprocesses are skipped, and the script says so.
"""
import os
import pathlib
import pty
import select
import shutil
import subprocess
import sys
import tempfile
import termios

TOP = pathlib.Path(__file__).resolve().parents[2]
ABNFI, PEGI = TOP / "bin" / "abnfi", TOP / "bin" / "pegi"
CALCULATOR = (TOP / "examples" / "calculator" / "calculator.peg").read_bytes()
SECONDS = 20
GRAMMAR = b'word = *ALPHA\n'
# The options, and what is sent in turn, each with what must come before the next.
TALKS = (
    ((), ((b"ab\n", b"yes\n"), (b"a1\n", b"no\n"), (b"\n", b"yes\n"))),
    (("-n", "-w"), ((b"ab\n", b"1:yes\n"), (b"a1\n", b"2:no 1\n"))),
    (("-x",), ((b"ab\n", b"yes\n"), (b"a1\n", b"no\n"), (b"a2\n", b"no\n"))),
    (("-z",), ((b"ab\0", b"yes\n"), (b"a\nb\0", b"no\n"))),
    (("-k",), ((b"ab\n", b"no\n"), (b"\n", b"no\n"))),
    (("-p", "refused"), ((b"ab\na1\n", b"a1\n"), (b"2\nab\n", b"2\n"))),
    (("-u", "utf8"), ((b"ab\n", b"yes\n"), (b"\xC3\xA9\n", b"no\n"))),
    # several lines at once, and the front of one more
    ((), ((b"ab\na1\nab\na", b"yes\nno\nyes\n"), (b"1\n", b"no\n"))),
    # a line in many parts
    ((), (*[(b"a", b"")] * 300, (b"\n", b"yes\n"))),
    # more than one read has
    ((), ((b"a" * 5000 + b"\n", b"yes\n"), (b"a" * 65535 + b"1\n", b"no\n"), (b"ab\n", b"yes\n"))),
    # lines that lie in two pieces of the window
    (("-l", "7"), tuple((b"a" * (k % 8) + b"\n", b"yes\n") for k in range(100))),
    (("-l", "7", "-x"), tuple((b"a" * (k % 7) + b"1\n", b"no\n") for k in range(100))),
)
# For pegi: the options, the grammar, what is sent in turn, each with what must come before the next, and what comes
# when the input is closed.
LINE = b"line <- < [a-z]* > '\\n' { yytext }\n"
UNITS = (
    ((), CALCULATOR, ((b"1 + 2\n", b"push 1\npush 2\nadd\nprint\n"), (b"2 +\n", b"no sum: 2 +\n"),
                      (b"3\r\n", b"push 3\nprint\n")), b""),
    ((), LINE, ((b"ab\n", b"ab\n"), (b"\n", b"\n"), (b"c\n", b"c\n")), b""),
    (("-x",), LINE, ((b"ab\n", b"ab\n"), (b"c\n", b"c\n")), b""),
    (("-b", "9"), LINE, ((b"ab\n", b"ab\n"), (b"c\n", b"c\n")), b""),
    (("-r",), LINE, ((b"ab\n", b" ab "), (b"c\n", b" c ")), b""),
    # several units at once, and the front of one more
    ((), LINE, ((b"ab\na\nab\na", b"ab\na\nab\n"), (b"c\n", b"ac\n")), b""),
    # a line in many parts
    ((), LINE, (*[(b"a", b"")] * 300, (b"\n", b"a" * 300 + b"\n")), b""),
    # more than one read has
    ((), LINE, ((b"a" * 5000 + b"\n", b"a" * 5000 + b"\n"), (b"b" * 60000 + b"\n", b"b" * 60000 + b"\n")), b""),
    # units that lie in two pieces of the window
    (("-l", "9"), LINE, tuple((b"a" * (k % 8) + b"\n", b"a" * (k % 8) + b"\n") for k in range(100)), b""),
    # units of two lines, and of many
    ((), b"two <- < [a-z]* '\\n' [a-z]* > '\\n' { yytext }\n",
     ((b"a\n", b""), (b"b\n", b"a\nb\n"), (b"c\nd\ne\n", b"c\nd\n"), (b"f\n", b"e\nf\n")), b""),
    ((), b"text <- ( !'.' < [a-z]* > '\\n' { yytext } )* '.\\n' { end }\n",
     (*[(b"a\n", b"")] * 60, (b".\n", b"a\n" * 60 + b"end\n"), (b"b\n.\n", b"b\nend\n")), b""),
    # a unit that looks past its line feed waits for the next one, or for the end
    ((), b"line <- < [a-z]* > '\\n' !' ' { yytext }\n", ((b"a\n", b""), (b"b\n", b"a\n"), (b"c\n", b"b\n")), b"c\n"),
    # .. and one of no bytes follows
    ((), b"all <- < [a-z\\n]* > !. { yytext }\n", ((b"a\n", b""), (b"b\n", b"")), b"a\nb\n\n\n"),
    (("-1",), LINE, ((b"a\n", b""),), b"a\n"),
    # units of one byte
    ((), b"start <- 'ab' { two } / < . > { yytext }\n",
     ((b"xxxx\n", b"x\nx\nx\nx\n\n\n"), (b"xab\n", b"x\ntwo\n\n\n")), b""),
)


class Talk:
    """A run of a program that is asked line by line, through two descriptors."""

    def __init__(self, program, words, given, taken, grammar, is_terminal=False):
        command = [program, "--line-buffered", *words, grammar]
        self.run = subprocess.Popen(command, stdin=given[0], stdout=taken[1], stderr=subprocess.DEVNULL)
        os.close(given[0])
        if not is_terminal:
            os.close(taken[1])
        self.given, self.taken = given[1], taken[0]

    def ask(self, sent, wanted):
        """Sends some bytes, and returns whether the answer is the expected one."""
        os.write(self.given, sent)
        got = b""
        while len(got) < len(wanted) and select.select([self.taken], [], [], SECONDS)[0]:
            more = os.read(self.taken, len(wanted) - len(got))
            if not more:
                break
            got += more
        return got == wanted

    def end(self):
        """Ends the run, and returns its status."""
        try:
            return self.run.wait(SECONDS)
        except subprocess.TimeoutExpired:
            self.run.kill()
            return self.run.wait()


def pipes_differ(program, words, talk, grammar, last, wanted_status):
    """Returns what is wrong with a talk through pipes; nothing is an empty text."""
    over = Talk(program, words, os.pipe(), os.pipe(), grammar)
    head = f"{program.name} {' '.join(words)}"
    for number, (sent, wanted) in enumerate(talk, 1):
        if not over.ask(sent, wanted):
            over.run.kill()
            return f"{head}: no answer {wanted[:40]!r} to line {number}, {sent[:40]!r}"
    os.close(over.given)
    with os.fdopen(over.taken, "rb") as taken:
        rest = taken.read()
    status = over.end()
    return "" if (rest, status) == (last, wanted_status) else f"{head}: {rest!r} at the end, status {status}"


def lines_differ(words, talk, grammar):
    """Returns what is wrong with a talk with abnfi."""
    refused = any(b"no" in wanted for _, wanted in talk) or "refused" in words
    return pipes_differ(ABNFI, words, talk, grammar, b"", int(refused))


def terminal_differs(program, grammar, talk, wanted_status):
    """Returns what is wrong with a talk on a terminal, where the end of the input is a key."""
    master, slave = pty.openpty()
    mode = termios.tcgetattr(slave)
    mode[1] &= ~termios.OPOST
    mode[3] &= ~termios.ECHO
    termios.tcsetattr(slave, termios.TCSANOW, mode)
    over = Talk(program, (), (slave, master), (master, os.dup(slave)), grammar, True)
    for sent, wanted in talk:
        if not over.ask(sent, wanted):
            over.run.kill()
            return f"{program.name}: terminal: no answer to {sent!r}"
    os.write(master, b"\x04")
    status = over.end()
    return "" if status == wanted_status else f"{program.name}: terminal: status {status}"


def closed_differs(program, grammar, answer):
    """Returns what is wrong where nobody reads the answers any more."""
    over = Talk(program, (), os.pipe(), os.pipe(), grammar)
    right = over.ask(b"ab\n", answer)
    os.close(over.taken)
    try:
        for _ in range(100):
            os.write(over.given, b"ab\n")
            if over.run.poll() is not None:
                break
    except BrokenPipeError:
        pass
    os.close(over.given)
    status = over.end()
    return "" if right and status == 4 else f"{program.name}: a closed output: status {status}"


def coprocess_differs(program, grammar, lines, answers):
    """Returns what is wrong with a coprocess of bash that answers each of these lines by one."""
    if not shutil.which("bash"):
        print("line_buffered_test: no bash: the coprocess is skipped")
        return ""
    script = f"""
coproc ASKED {{ '{program}' --line-buffered '{grammar}'; }}
for line in {" ".join(lines)}; do
    echo "$line" >&"${{ASKED[1]}}"
    read -r -t {SECONDS} answer <&"${{ASKED[0]}}" || answer=late
    echo "$line $answer"
done
"""
    ran = subprocess.run(["bash", "-c", script], capture_output=True, text=True, timeout=5 * SECONDS, check=False)
    wanted = "".join(f"{line} {answer}\n" for line, answer in zip(lines, answers))
    return "" if ran.stdout == wanted else f"{program.name}: coprocess: {ran.stdout!r} {ran.stderr!r}"


def abnfi_wrong(folder):
    """Returns what is wrong with abnfi."""
    grammar = folder / "g"
    grammar.write_bytes(GRAMMAR)
    talk = ((b"ab\n", b"yes\n"), (b"a1\n", b"no\n"), (b"ab\n", b"yes\n"))
    return [*(lines_differ(words, talk, grammar) for words, talk in TALKS),
            terminal_differs(ABNFI, grammar, talk, 1), closed_differs(ABNFI, grammar, b"yes\n"),
            coprocess_differs(ABNFI, grammar, ("ab", "a1", "ab"), ("yes", "no", "yes"))]


def pegi_wrong(folder):
    """Returns what is wrong with pegi."""
    wrong, grammar = [], folder / "g"
    for words, text, talk, last in UNITS:
        grammar.write_bytes(text)
        wrong.append(pipes_differ(PEGI, words, talk, grammar, last, 0))
    grammar.write_bytes(CALCULATOR)
    sums = ((b"1+2\n", b"push 1\npush 2\nadd\nprint\n"), (b"+\n", b"no sum: +\n"), (b"7\n", b"push 7\nprint\n"))
    wrong.append(terminal_differs(PEGI, grammar, sums, 0))
    grammar.write_bytes(LINE)
    return [*wrong, closed_differs(PEGI, grammar, b"ab\n"),
            coprocess_differs(PEGI, grammar, ("ab", "c", "ab"), ("ab", "c", "ab"))]


def main():
    wrong, count = [], 0
    with tempfile.TemporaryDirectory(prefix="line_buffered-") as folder:
        for program, tried, talks in ((ABNFI, abnfi_wrong, TALKS), (PEGI, pegi_wrong, UNITS)):
            if not program.exists():
                print(f"line_buffered_test: {program.name}: not built: skipped")
                continue
            wrong += [it for it in tried(pathlib.Path(folder)) if it]
            count += len(talks)
    print(*wrong, f"line_buffered_test: {count} talks through pipes, and others: {len(wrong)} wrong", sep="\n")
    return 1 if wrong else 0


sys.exit(main())
