#!/usr/bin/env python3
"""Runs the examples of the manual pages and of README as they stand there, and fails where one prints something else.

usage: man_examples.py [BIN PAGES]

`The file NAME` stands before the text of a file in a manual page; in README `$ cat NAME` does. Lines with `$ ` are
commands; what stands after a command is what it prints, on either output. The commands of a page run in one folder.
The programs are those of bin/, or of the first folder that is named, and then the manual pages alone are run: those of
the second folder, where they may be packed.
"""
import gzip
import os
import pathlib
import re
import subprocess
import sys
import tempfile

TOP = pathlib.Path(__file__).resolve().parents[2]


def plain(line):
    """Returns a line as it is shown: without the escapes of the page."""
    return line.replace("\\e", "\0").replace("\\-", "-").replace("\\&", "").replace("\\(aq", "'").replace("\0", "\\")


def blocks(page):
    """Yields the lines of each example, with the name of the file that stands in it, if the text before names one."""
    raw = page.read_bytes()
    if page.suffix == ".md":
        for found in re.finditer(r"^```\n((?:.*\n)*?)```\n", raw.decode(), re.M):
            yield None, found.group(1).splitlines()
        return
    text = (gzip.decompress(raw) if page.suffix == ".gz" else raw).decode().partition("\n.SH EXAMPLES\n")[2]
    for found in re.finditer(r"((?:(?!\.nf\n).*\n)*?)\.nf\n\.RS\n((?:.*\n)*?)\.RE\n\.fi\n", text):
        named = re.findall(r"\bThe file ([\w.-]+\w)", found.group(1))
        yield named[-1].replace("\\-", "-") if named else None, [plain(it) for it in found.group(2).splitlines()]


def commands(lines):
    """Yields each command with what it must print."""
    for found in re.finditer(r"^\$ (.*\n(?:> .*\n)*)((?:(?!\$ ).*\n)*)", "".join(it + "\n" for it in lines), re.M):
        yield found.group(1).replace("\n> ", "\n").strip("\n"), found.group(2)


def run_page(page, programs, folder):
    """Returns how many commands of a page ran, and how many were wrong."""
    ran, wrong = 0, 0
    environment = os.environ | {"PATH": f"{programs}:{os.environ['PATH']}"}
    for name, lines in blocks(page):
        if not any(it.startswith("$ ") for it in lines):
            if name:
                (folder / name).write_text("".join(it + "\n" for it in lines))
            continue
        for command, want in commands(lines):
            shown = re.fullmatch(r"cat ([\w.-]+)", command)
            if page.suffix == ".md" and shown:
                (folder / shown.group(1)).write_text(want)
            found = subprocess.run(["sh", "-c", command], cwd=folder, env=environment, text=True, check=False,
                                   stdout=subprocess.PIPE, stderr=subprocess.STDOUT).stdout
            ran += 1
            if found != want:
                wrong += 1
                print(f"{page.name}: $ {command}\n{found}-- must print:\n{want}", end="")
    return ran, wrong


def main(words):
    programs, pages = map(pathlib.Path, words or (TOP / "bin", TOP / "man"))
    status = 0
    for page in (*sorted(pages.glob("*.1*")), *(() if words else (TOP / "README.md",))):
        with tempfile.TemporaryDirectory() as folder:
            ran, wrong = run_page(page, programs.resolve(), pathlib.Path(folder))
        print(f"{page.name}: {ran} commands, {wrong} wrong")
        status |= bool(wrong) or not ran
    return status


sys.exit(main(sys.argv[1:]))
