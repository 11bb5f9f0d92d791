#!/usr/bin/env python3
"""Runs a program before anything is proved, by `rt try`, which takes about a minute.

usage: try_tools.py

With no TOOL in the environment it runs an example of each program. TOOL is pegi, abnfi, abnfx, abnfd or abnfg.
OPTIONS are further arguments of the program.

- pegi and abnfi: GRAMMAR is a file. The program runs on the file INPUT, or on standard input if INPUT is not set.
- abnfx, abnfd and abnfg: TEXTS are the files of the texts, of both grammars, or of the grammar.
- CASES is a folder in place of INPUT or TEXTS. The program is built once and run on each file of it. What it prints is
  compared with the file of the same name that ends in .stdout; if there is none, it is shown.

The status is that of the program; with CASES, that of `rt try`. RT names the command, `rt` if not set.
"""
import os
import pathlib
import re
import shlex
import subprocess
import sys
import tempfile

TOP = pathlib.Path(__file__).resolve().parents[2]
RT = os.environ.get("RT", "rt").split()
TOOLS = ("pegi", "abnfi", "abnfx", "abnfd", "abnfg")
# The programs that take texts.
TAKERS = ("abnfx", "abnfd", "abnfg")
USAGE = """usage: make try TOOL=pegi|abnfi GRAMMAR=file [INPUT=file | CASES=folder] [OPTIONS='..']
       make try TOOL=abnfx TEXTS='file ..' | CASES=folder [OPTIONS='..']
       make try TOOL=abnfd TEXTS='old new' [OPTIONS='..']
       make try TOOL=abnfg TEXTS=grammar | CASES=folder [OPTIONS='..']"""
# What `rt try` writes on standard error after the program's own lines: the last line has the program's status.
ENDED = re.compile(r"(checked: .*\n|interpreter: .*\n)*run=ended status=(\d+) .*\n\Z")


def names_of(files):
    """Returns the names of these files for the program: their last parts, with a number where two are alike."""
    names = [pathlib.Path(it).name for it in files]
    return [it if names.count(it) == 1 else f"{number}-{it}" for number, it in enumerate(names, 1)]


class Trial:
    """A run of a program by `rt try`: its files as the program names them, its standard input, and its options."""

    def __init__(self, tool, files, given="", options=(), cases=""):
        named = [*files, "{}"] if cases and tool in ("abnfx", "abnfg") else files
        shown = [tool, *options, *named]
        self.shown = shlex.join(shown) + (f" < {shlex.quote(given)}" if given else "")
        self.out, self.err = tempfile.TemporaryFile(), tempfile.TemporaryFile()
        names = names_of(files)
        words = [word for it, file in zip(names, files) for word in ("--data", f"{it}={pathlib.Path(file).resolve()}")]
        words += ["--cases", os.path.abspath(cases)] if cases else []
        words = ["try", *words, "--", *options, *names, *named[len(files):]]
        with open(given, "rb") if given else os.fdopen(os.dup(0), "rb") as text:
            self.run = subprocess.Popen([*RT, *words], cwd=TOP / "crates" / tool, stdin=text, stdout=self.out,
                                        stderr=self.err)

    def show(self):
        """Waits for the end, shows what the program wrote, and returns its status."""
        status = self.run.wait()
        self.out.seek(0)
        self.err.seek(0)
        print(f"\n$ {self.shown}", flush=True)
        sys.stdout.buffer.write(self.out.read())
        sys.stdout.flush()
        reported = self.err.read().decode(errors="replace")
        ended = ENDED.search(reported)
        print(reported[: ended.start()] if ended else reported, end="", file=sys.stderr, flush=True)
        return int(ended[2]) if ended else status


def examples():
    """Returns an example of each program."""
    os.chdir(TOP)
    return [
        ("pegi", ["examples/username/username.peg"], "examples/username/letter.txt"),
        ("abnfi", ["examples/rfc3339/rfc3339.abnf"], "examples/rfc3339/lines.txt", ["-s", "date-time"]),
        ("abnfx", ["crates/abnfx/data/pages.txt"]),
        ("abnfd", ["crates/abnfd/data/old.abnf", "crates/abnfd/data/new.abnf"]),
        ("abnfg", ["crates/abnfg/data/date.abnf"]),
    ]


def asked():
    """Returns the runs that are asked for, or ends the script with what is wrong with the words."""
    names = ("TOOL", "GRAMMAR", "TEXTS", "INPUT", "CASES")
    tool, grammar, texts, given, cases = (os.environ.get(it, "") for it in names)
    if not any((tool, grammar, texts, given, cases)):
        return examples()
    files = shlex.split(texts) if tool in TAKERS else [grammar]
    if tool not in TOOLS or not (texts or cases if tool in TAKERS else grammar):
        sys.exit(USAGE)
    for it in filter(None, (*files, given)):
        if not pathlib.Path(it).is_file():
            sys.exit(f"{it}: there is no such file")
    if cases and not pathlib.Path(cases).is_dir():
        sys.exit(f"{cases}: there is no such folder")
    return [(tool, files, given, shlex.split(os.environ.get("OPTIONS", "")), cases)]


def main():
    runs = asked()
    print("Not proved yet: make proves it. This takes about a minute ..", flush=True)
    trials = [Trial(*it) for it in runs]
    statuses = [it.show() for it in trials]
    print("\nNot proved yet: make proves it.", flush=True)
    # (some line of the second example is `no`, so its status says nothing)
    return statuses[0] if len(statuses) == 1 else 0


sys.exit(main())
