#!/usr/bin/env python3
"""Runs the programs of bin/ on the rows of scripts/gate/runs/, and compares what they write with what is expected.

usage: run_rows.py [-b FOLDER] [NAME ..]

The names are those of files in runs/, without `.txt`; with none it runs all. -b names another folder of programs. The
status is 1 if a run writes something else. A row is one command or more, each on a line of its own, and the texts of
the row, which are the same for each of its commands:

    pegi -l 8 g
      grammar S <- 'a' {x}
      input   ab\\
      out     x
      err     no match at byte 1
      status  1

- A command is a program of bin/ and its words, with spaces between them; `''` is the empty word.
- `grammar` is the file `g` of the folder in which the command runs. `file NAME` begins a further file, and `text` adds
  to it.
- `input`, `out` and `err` are standard input, what must come on standard output, and on standard error. What a row does
  not name is empty. `status` is the exit status, 0 if the row names none. `unread` says that no byte of the input is
  read.
- The text of a key begins in column 11. Further lines with that key go on with it. Each line ends with a line feed, but
  for one that ends in a single `\\`.
- `\\xHH` is a byte, `\\t`, `\\r` and `\\\\` are what they are in C, and `\\{N:TEXT}` is a text N times over. The text
  `\\any` stands for any text but the empty one.
- A line that begins with `#` is a comment. An empty line ends a row.

What `-m print` writes is a grammar too: it must be printed again as it is.
"""
import concurrent.futures
import os
import pathlib
import re
import subprocess
import sys
import tempfile

TOP = pathlib.Path(__file__).resolve().parents[2]
ROWS = pathlib.Path(__file__).resolve().parent / "runs"
TEXT_COLUMN = 10
SECONDS = 60
ESCAPE = re.compile(rb"\\(?:x([0-9A-F]{2})|\{(\d+):((?:[^\\}]|\\x..|\\.)*)\}|([tr\\]))")
LETTERS = {b"t": b"\t", b"r": b"\r", b"\\": b"\\"}
ANY = object()


class Row:
    """The commands of a row, and its texts."""

    def __init__(self, where):
        self.where, self.commands, self.files, self.texts = where, [], {}, {}
        self.status, self.is_unread, self.file = 0, False, b"g"

    def add(self, key, text, is_line):
        """Takes a line of the row: a key and what stands after it."""
        if key == "status":
            self.status = int(text)
        elif key == "unread":
            self.is_unread = True
        elif key == "file":
            self.file = unescaped(text)
            self.files[self.file] = b""
        elif key in ("grammar", "text"):
            self.files[self.file] = self.files.get(self.file, b"") + unescaped(text) + b"\n" * is_line
        elif key in ("input", "out", "err"):
            more = ANY if text == b"\\any" else self.texts.get(key, b"") + unescaped(text) + b"\n" * is_line
            self.texts[key] = more
        else:
            raise ValueError(f"no key '{key}'")


def unescaped(text):
    """Returns the bytes that a text stands for."""

    def stands_for(found):
        byte, count, repeated, letter = found.groups()
        if byte:
            return bytes([int(byte, 16)])
        return unescaped(repeated) * int(count) if count else LETTERS[letter]

    if b"\\" in ESCAPE.sub(b"", text):
        raise ValueError(f"no escape: {text.decode('latin1')}")
    return ESCAPE.sub(stands_for, text)


def add_line(row, line):
    """Takes a line that is indented."""
    key, text = line[:TEXT_COLUMN].decode().strip(), line[TEXT_COLUMN:]
    ends = re.search(rb"\\*$", text)[0]
    is_line = key not in ("grammar", "text", "input", "out", "err") or text == b"\\any" or len(ends) % 2 == 0
    row.add(key, text if is_line else text[:-1], is_line)


def rows_of(file):
    """Returns the rows of a file."""
    rows, row = [], None
    for number, line in enumerate(file.read_bytes().split(b"\n"), 1):
        try:
            if not line:
                row = None
            elif line.startswith(b" "):
                add_line(row, line)
            elif not line.startswith(b"#"):
                if not row:
                    row = Row(f"{file.name}:{number}")
                    rows.append(row)
                words = [b"" if it == b"''" else unescaped(it) for it in line.split(b" ")]
                row.commands.append(words)
        except (AttributeError, ValueError) as fault:
            sys.exit(f"{file.name}:{number}: {fault}")
    return rows


def run(programs, words, row, files):
    """Runs a command in a folder with these files. Returns its outputs, its status, and how many bytes it read."""
    with tempfile.TemporaryDirectory() as folder:
        for name, text in files.items():
            pathlib.Path(folder, os.fsdecode(name)).write_bytes(text)
        given = row.texts.get("input", b"")
        with tempfile.TemporaryFile() as taken:
            taken.write(given)
            taken.seek(0)
            program = [os.fsencode(programs / words[0].decode()), *words[1:]]
            ran = subprocess.run(program, cwd=folder, stdin=taken, capture_output=True, timeout=SECONDS, check=False)
            return ran.stdout, ran.stderr, ran.returncode, os.lseek(taken.fileno(), 0, os.SEEK_CUR)


def is_wanted(found, wanted):
    return bool(found) if wanted is ANY else found == wanted


def faults_of(programs, words, row, files, out):
    """Runs a command. Returns what differs from the row, with this on standard output."""
    try:
        *texts, status, count = run(programs, words, row, files)
    except (OSError, subprocess.TimeoutExpired) as fault:
        return [str(fault)]
    wanted = (out, row.texts.get("err", b""))
    faults = [
        f"{name}: {found!r}, not {want!r}"
        for name, found, want in zip(("out", "err"), texts, wanted)
        if not is_wanted(found, want)
    ]
    if status != row.status:
        faults.append(f"status {status}, not {row.status}")
    if row.is_unread and count:
        faults.append(f"{count} bytes of the input are read")
    return faults


def check(programs, row):
    """Runs the commands of a row. Returns how many runs there were, and the lines on what is wrong."""
    runs, lines = 0, []
    for words in row.commands:
        wanted = row.texts.get("out", b"")
        turns = [row.files]
        if b"print" in words and row.status == 0 and wanted is not ANY:
            turns.append({b"g": wanted})
        for files in turns:
            runs += 1
            shown = b" ".join(words).decode("latin1")
            lines += [f"{row.where}: {shown}: {it}" for it in faults_of(programs, words, row, files, wanted)]
    return runs, lines


def main(words):
    programs = TOP / "bin"
    if words[:1] == ["-b"]:
        programs, words = pathlib.Path(words[1]).resolve(), words[2:]
    files = [ROWS / f"{it}.txt" for it in words] or sorted(ROWS.glob("*.txt"))
    is_right = True
    with concurrent.futures.ThreadPoolExecutor(os.cpu_count()) as pool:
        for file in files:
            rows = rows_of(file)
            done = list(pool.map(lambda row: check(programs, row), rows))
            wrong = [line for _, lines in done for line in lines]
            print(f"{file.name}: {len(rows)} rows, {sum(count for count, _ in done)} runs, {len(wrong)} faults")
            for line in wrong:
                print(line if len(line) < 2000 else line[:2000] + " ..", file=sys.stderr)
            is_right = is_right and not wrong
    return 0 if is_right else 1


sys.exit(main(sys.argv[1:]))
