#!/usr/bin/env python3
"""Lists the names in code marks of the documents that nothing has, one line each, and fails where there is one.

A name is a text in backticks that is wholly a path, a file's name, a word in snake case or camel case, or several such
words with `::` between them; after the name of a folder `specs/` or of a file in it, each further name of a list is
that of a file there. A name must be that of a file, a folder or a crate, or stand in the code: comments do not count.
What pages.py writes and fenced code are not looked at. Capitals stand for any name.

usage: doc_names.py
"""
import pathlib
import re
import sys

from names import sources

TOP = pathlib.Path(__file__).resolve().parents[2]
# What begins and ends a part that pages.py writes, and what fences code.
WRITTEN = re.compile(r"<!-- (?!end).*?<!-- end -->", re.S)
FENCED = re.compile(r"^```.*?^```", re.S | re.M)
MARKED = re.compile(r"`([^`\n]+)`")
WORD = re.compile(r"[A-Za-z_][A-Za-z0-9_]*")
# Words in snake case and in camel case, files and folders.
NAME = re.compile(r"[a-z]\w*_\w+|_?[A-Z]\w*[a-z]\w*")
FILE = re.compile(r"[\w.+-]*\w\.(?:rt|antt|edit|md|py|sh|peg|abnf|txt|json|c)")
PATH = re.compile(r"(?:[\w.+*-]+/)+(?:[\w.+*-]+)?")
# A file or folder of definitions, and files of the same folder after it.
LISTED = re.compile(r"`(\w+/specs/)(?:\w+(?:\.antt)?)?`:?((?:,?\s`[A-Z]\w+`)+)")
# What begins a comment, by a file's ending.
COMMENTS = {".rt": "//", ".antt": "--", ".py": "#", ".sh": "#"}
CODE = {".rt", ".antt", ".py", ".sh", ".peg", ".abnf", ".edit", ".c"}
# What only a build, the prover or a reader makes, and examples of names.
ELSEWHERE = {"Lts", "bin/", "bin/abnfi", "bin/pegi", "rfc.txt", "stream.sh", "ClassLemmas", "pushes_keep_order"}
# Capitals that stand for a name.
ANY = re.compile(r"[A-Z]{4}")


def words_of(path):
    """Returns the words of a file of code, without those of its comments."""
    mark = COMMENTS.get(pathlib.PurePath(path).suffix)
    lines = (TOP / path).read_text(errors="replace").splitlines()
    return {word for line in lines for word in WORD.findall(line.split(mark)[0] if mark else line)}


def ends_of(path):
    """Yields the ends of a path and of its folders, from the last part alone on. A source may lack its ending, and a
    folder may have `/` after it."""
    parts = path.split("/")
    for last in range(1, len(parts) + 1):
        for first in range(last):
            end = "/".join(parts[first:last])
            yield end
            yield end + "/" if last < len(parts) else re.sub(r"\.(?:antt|rt)$", "", end)


def texts(path):
    """Yields the texts in code marks of a document, and what stands listed after a folder, each with its line."""
    blank = lambda found: "\n" * found.group().count("\n")
    text = FENCED.sub(blank, WRITTEN.sub(blank, (TOP / path).read_text()))
    for found in MARKED.finditer(text):
        yield text.count("\n", 0, found.start()) + 1, found.group(1)
    for found in LISTED.finditer(text):
        for name in MARKED.findall(found.group(2)):
            yield text.count("\n", 0, found.start()) + 1, f"{found.group(1)}{name}"


def main():
    files = [str(it) for it in sources(TOP)]
    places = {end for path in files for end in ends_of(path)}
    crates = {path.split("/")[1] for path in files if path.startswith("crates/")}
    words = set().union(*(words_of(it) for it in files if pathlib.PurePath(it).suffix in CODE))
    words |= crates | {pathlib.PurePath(it).stem for it in files} | ELSEWHERE
    documents = [it for it in files if it.endswith(".md") and (it.count("/") == 0 or it.startswith("docs/"))]
    wrong = 0
    for path in documents:
        for number, text in texts(path):
            if PATH.fullmatch(text) or FILE.fullmatch(text):
                known = "*" in text or ANY.search(text) or text in places or text in ELSEWHERE
            elif all(NAME.fullmatch(it) or it in crates for it in text.removesuffix("()").split("::")):
                known = all(it in words for it in text.removesuffix("()").split("::"))
            else:
                continue
            if not known:
                print(f"{path}:{number}: nothing has the name `{text}`")
                wrong += 1
    return 1 if wrong else 0


sys.exit(main())
