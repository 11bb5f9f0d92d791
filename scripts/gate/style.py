#!/usr/bin/env python3
"""Lists what breaks the style of documents, one line each, and fails where something does: words of the old dialect,
long sentences, numbers that differ from the constants that they name, crates that crates.txt does not have, and what
`man --warnings` and `mandoc -T lint` report on manual pages, where they are installed.

Words are looked for in README, CONTRIBUTING, docs/ and man/, in the doc comments of crates/*/src/, and in comments and
doc strings of scripts/, but only in the files of CHECKED. Names of the old dialect are looked for in src/ and specs/.
Sentences are counted in README and man/, if CHECKED has them. Numbers and crates are looked for in all documents. Code
marks, fenced code and examples of manual pages are no words.

usage: style.py [-a]

With -a the words of all files are looked for, whatever CHECKED says.
"""
import collections
import fnmatch
import io
import os
import pathlib
import re
import shlex
import shutil
import subprocess
import sys
import tokenize

sys.path.insert(0, str(pathlib.Path(__file__).resolve().parents[1]))  # scripts/, for what groups share
from crates import in_order

TOP = pathlib.Path(__file__).resolve().parents[2]
# The crates whose doc comments are clean.
SOURCES = """
    abnfblocks abnfcheck abnfd abnfexplain abnfg abnfhints abnfi abnfprint abnfread abnfrun abnftexts abnfx capi cli
    coverlines diagnostics earley earleyitems fanquber fanquber_c feed findings fixpoint flatgrammar gramcheck lazydfa
    lexer linejudge lowering matchfailure memo memoryrun packrat pegexplain pegi pegmatch pegnodes
    pegprint pegread pegrun refusedlines rfcforms rfcvalues rulelines ruletable tests_calls
    toolrun uses
    """.split()
# The files whose words are clean. A file that is rewritten joins them.
CHECKED = (
    "README.md", "CONTRIBUTING.md", "docs/ARCHITECTURE.md", "docs/DECISIONS.md", "docs/DEFINITIONS.md",
    "docs/DEFINITIONS_ABNF.md", "docs/EMBEDDING.md", "docs/GLOSSARY.md", "docs/HOW_IT_WORKS.md",
    "docs/LARGE_INPUTS.md", "docs/PROVED.md", "docs/RELIABILITY.md", "man/*",
    "docs/crates/*", "scripts/*", *(f"crates/{it}/src/*" for it in SOURCES),
)
# The words of the old dialect, each with the field's word.
WORDS = (
    (r"behind", "after"),
    (r"refus(?:e|es|ed|al|als|ing)", "reject; an allocation fails"),
    (r"tells?|telling|told", "report, print, say"),
    (r"viable\s+beginnings?|(?:a|longest)\s+beginning\s+of", "prefix"),
    (r"want\s+of(?:\s+memory)?|memory\s+(?:is|was|be)\s+wanting", "an allocation fails"),
    (r"by\s+name\s+alone", "named errors"),
    (r"com(?:e|es|ing)\s+back\s+to\s+(?:it|them)sel(?:f|ves)", "cycle"),
    (r"(?:lists?\s+of|the)\s+letters\s+of\s+the\s+alphabet|lists?\s+of\s+letters", "symbols"),
    (r"spots?", "task"),
    (r"deeds?", "actions"),
    (r"hops?", "cached transition"),
    (r"turns\s+(?:that|of|over)", "iterations"),
    (r"made\s+good", "retried"),
)
# Words of the old dialect in names, and the names of the standard library that have one.
OLD_PART = re.compile(r"(?:^|_)(told|tells?|behind|spots?|deeds?|hops?|beginnings?)(?=_|$)")
KIT_NAMES = {"eqb_tells", "handle_tells"}
# What is agreed to be otherwise: a file, and the word as it stands there.
AGREED = set()
LONGEST_SENTENCE = 35
# A number that documents name: the file of its constant, how that stands there, and how documents say it.
Limit = collections.namedtuple("Limit", "name file constant phrases")
NUMBER = r"\b(\d{1,3}(?:,\d{3})+|\d+)"
LIMITS = (
    Limit("MAX_GRAMMAR", "crates/lexer/src/limits.rt", r"MAX_GRAMMAR: usize = ([\d_]+)", (
        rf"[Gg]rammars?\s+(?:has|have|of)\s+(?:at\s+most|more\s+than)\s+{NUMBER}\s+bytes",
        rf"joined\s+grammar\s+(?:has\s+more\s+than|at\s+most)\s+{NUMBER}",
        rf"grammar\s+too\s+long\n(?:More\s+than)\s+{NUMBER}\s+bytes",
        rf"within\s+its\s+limits:\s+{NUMBER}\s+bytes",
    )),
    Limit("MAX_OPEN", "crates/lexer/src/limits.rt", r"MAX_OPEN: usize = ([\d_]+)", (
        rf"(?:[Aa]t\s+most|[Mm]ore\s+than|and|bytes,)\s+{NUMBER}\s+(?:open\s+|nested\s+)?(?:brackets|parentheses)",
        rf"brackets,\s+of\s+which\s+at\s+most\s+{NUMBER}\s+are\s+open",
    )),
    Limit("MAX_LIMIT", "crates/toolrun/src/settings.rt", r"MAX_LIMIT: usize = ([\d_]+)", (
        rf"number\s+from\s+1\s+to\s+{NUMBER}", rf"may\s+have,\s+to\s+{NUMBER}", rf"the\s+limit\s+\(1\s+to\s+{NUMBER}\)",
        rf"(?:looks\s+at|a\s+line)\s+no\s+more\s+than\s+{NUMBER}\s+bytes",
        rf"FANQUBER_MAX_LIMIT(?:\\fR)?\s+\({NUMBER}\)",
    )),
    Limit("DEFAULT_LIMIT", "crates/toolrun/src/settings.rt", r"DEFAULT_LIMIT: usize = ([\d_]+)", (
        rf"number\s+from\s+1\s+to\s+[\d,]+\.\s+The\s+default\s+is\s+{NUMBER}",
        rf"may\s+have,\s+to\s+[\d,]+ \| {NUMBER}",
        rf"FANQUBER_MAX_LIMIT(?:\\fR)?\s+\([\d,]+\);\s+{NUMBER}\s+in",
    )),
    Limit("MAX_TEXT", "crates/abnfx/src/texts.rt", r"MAX_TEXT: usize = ([\d_]+)", (
        rf"[Tt]exts?\s+(?:has|have|is)\s+(?:at\s+most|longer\s+than)\s+{NUMBER}\s+bytes",
        rf"IB TEXT \" longer than {NUMBER} bytes", rf"(?:each\s+)?of\s+at\s+most\s+{NUMBER}\s+bytes",
    )),
    Limit("MAX_REPORTED", "crates/linejudge/src/reached.rt", r"MAX_REPORTED: usize = ([\d_]+)", (
        rf"first\s+{NUMBER}\s+(?:(?:refused|rejected)\s+)?lines",
    )),
)
# What a message or a status is called in documents, by the name of the status.
STATUSES = (
    ("NoMatch", r"no\s+match|nothing\s+matches|some\s+line\s+is"),
    ("Overlong", r"longer\s+than|too\s+long(?!,)"),
    ("Fault", r"read\s+error|write\s+error|cannot\s+(?:be\s+)?read"),
    ("NoMemory", r"out\s+of\s+memory"),
)
CODES = re.compile(r"Status::(\w+) => (\d)")
# What reports faults of a manual page on standard output.
PAGE_CHECKS = ("man --warnings -E UTF-8 -l -Tutf8 -Z {} 2>&1 >/dev/null", "mandoc -T lint {} 2>&1")
FENCED = re.compile(r"^```.*?^```", re.S | re.M)
MARKED = re.compile(r"`[^`]*`")
# Examples of a manual page, and words that it shows as they are typed or printed.
EXAMPLE = re.compile(r"^\.(?:nf\n.*?^\.fi|TS\n.*?^\.TE)$", re.S | re.M)
TYPED = re.compile(r"^\.(?:B|BR|BI|RB) .*$|\\fB.*?\\fR", re.M)
DOC = re.compile(r"^ *//[/!]")
# A crate in code marks: by a path, or in the first cell of a row of the table of crates.
PATH = re.compile(r"`(?:crates/)?([a-z]\w*)/(?:src|specs|proofs|must-fail)/")
ROW = re.compile(r"^\| (`\w+`(?:, `\w+`)*) \|", re.M)


def blanked(pattern, text):
    """Returns the text with spaces in place of what matches; its lines stay."""
    return pattern.sub(lambda found: re.sub(r"[^\n]", " ", found.group()), text)


def comments(text):
    """Returns the doc comments of a source, with empty lines in place of its code."""
    lines = (DOC.sub(lambda found: " " * len(found.group()), it) if DOC.match(it) else "" for it in text.split("\n"))
    return re.sub(r"```.*?```", lambda found: re.sub(r"[^\n]", " ", found.group()), "\n".join(lines), flags=re.S)


def script_comments(text):
    """Returns the comments and doc strings of a script, with empty lines in place of its code."""
    lines = [""] * (text.count("\n") + 1)
    for token in tokenize.generate_tokens(io.StringIO(text).readline):
        if token.type == tokenize.COMMENT or token.type == tokenize.STRING and token.string.startswith('"""'):
            for number, line in enumerate(token.string.split("\n"), token.start[0] - 1):
                lines[number] = line
    return "\n".join(lines)


def old_names(top):
    """Yields each name of the old dialect in a source or a specification, with its file and line."""
    for file in sorted([*top.glob("crates/*/src/**/*.rt"), *top.glob("crates/*/specs/**/*.antt")]):
        mark = "--" if file.suffix == ".antt" else "//"
        for number, line in enumerate(file.read_text().split("\n"), 1):
            for name in re.findall(r"[A-Za-z_]\w*", re.sub(r'"[^"]*"', "", line.partition(mark)[0])):
                parts = re.sub(r"(?<=[a-z])(?=[A-Z])", "_", name).lower()
                if OLD_PART.search(parts) and name not in KIT_NAMES:
                    yield f"{file.relative_to(top)}:{number}: the name `{name}` is of the old dialect"


def prose(path, text):
    """Returns the words of a file as a reader meets them: without code marks, fenced code and examples."""
    if path.startswith("crates/"):
        return blanked(MARKED, comments(text))
    if path.startswith("scripts/"):
        return blanked(MARKED, script_comments(text))
    if path.startswith("man/"):
        return blanked(TYPED, blanked(EXAMPLE, text))
    return blanked(MARKED, blanked(FENCED, text))


def line_of(text, at):
    return text.count("\n", 0, at) + 1


def old_words(path, text):
    """Yields each word of the old dialect, with its line."""
    words = prose(path, text)
    for pattern, new in WORDS:
        for found in re.finditer(rf"\b(?:{pattern})\b", words, re.I):
            old = " ".join(found.group().split())
            if (path, old) not in AGREED:
                yield line_of(words, found.start()), f"'{old}': the field says {new}"


def paragraphs(path, text):
    """Yields each paragraph, list item, cell of a table or tag of a manual page, with its first line."""
    text = blanked(EXAMPLE if path.startswith("man/") else FENCED, text)
    ends = r"^\.(?:PP|TP|IP|SH|SS|TH|nf|fi|RS|RE)\b.*$" if path.startswith("man/") else r"^#.*$|^(?=- |\d\. )|\|"
    at = 0
    for part in re.split(rf"({ends}|\n\n)", text, flags=re.M):
        if part and not re.fullmatch(rf"{ends}|\n\n", part):
            yield line_of(text, at + len(part) - len(part.lstrip())), part
        at += len(part)


def long_sentences(path, text):
    """Yields each sentence of more words than a reader keeps in mind, with its line."""
    for line, part in paragraphs(path, text):
        shown = re.sub(r"^\.(?:[BIR]+|\\\") ", "", part, flags=re.M) if path.startswith("man/") else part
        for sentence in re.split(r"(?<=[.:?])\s+(?=[A-Z`*\\])", " ".join(shown.split())):
            count = len([it for it in sentence.split() if re.search(r"\w", it)])
            if count > LONGEST_SENTENCE:
                yield line, f"a sentence of {count} words: {' '.join(sentence.split()[:6])} .."


def constants():
    """Yields each limit with its value in the code."""
    for limit in LIMITS:
        found = re.search(limit.constant, (TOP / limit.file).read_text())
        if not found:
            sys.exit(f"style.py: {limit.file} has no {limit.name}")
        yield limit, int(found.group(1).replace("_", ""))


def other_numbers(text, values):
    """Yields each number of a document that differs from the constant that it names, with its line."""
    for limit, value in values:
        for phrase in limit.phrases:
            for found in re.finditer(phrase, text):
                if int(found.group(1).replace(",", "")) != value:
                    yield line_of(text, found.start(1)), f"{found.group(1)}, but {limit.name} is {value}"


def statuses():
    """Returns the number of each status, as the code has it."""
    return {name: int(number) for name, number in CODES.findall((TOP / "crates/toolrun/src/status.rt").read_text())}


def named_statuses(path, text):
    """Yields each status that a document gives to a message or explains in a list: where, its number, and the words."""
    for found in re.finditer(r"`([^`\n]+)`[,)]? (?:and )?status\s+(\d)", text):
        yield found.start(), found.group(2), found.group(1)
    if path == "README.md":
        yield from ((it.start(), *it.groups()) for it in re.finditer(r"(?<=[.s]) (\d): ([^.]*)\.", text))
    section = re.search(r"^\.SH EXIT STATUS\n.*?(?=^\.SH )", text, re.S | re.M)
    for found in re.finditer(r"^\.B (\d)\n(.*?)(?=^\.TP|\Z)", section.group() if section else "", re.S | re.M):
        yield section.start() + found.start(), *found.groups()


def other_statuses(path, text, codes):
    """Yields each number of a status that the code gives to another one, with its line."""
    for at, number, words in named_statuses(path, text):
        for name, pattern in STATUSES:
            if re.search(pattern, words, re.I) and codes[name] != int(number):
                yield line_of(text, at), f"status {number}, but that of '{name}' is {codes[name]}"
    for found in re.finditer(r"FANQUBER_([A-Z_]+)\W+\((\d)\)", text):
        name = "".join(it.capitalize() for it in found.group(1).split("_"))
        if codes.get(name, int(found.group(2))) != int(found.group(2)):
            yield line_of(text, found.start()), f"{found.group(2)}, but status '{name}' is {codes[name]}"


def other_crates(path, text, crates):
    """Yields each crate that a document names and crates.txt does not have, with its line."""
    named = [(found.start(), found.group(1)) for found in PATH.finditer(text)]
    if path == "docs/ARCHITECTURE.md":
        table = text.partition("\n## Crates\n")[2].partition("\n## ")[0]
        first = text.find(table)
        named += [(first + found.start(), name) for found in ROW.finditer(table)
                  for name in re.findall(r"\w+", found.group(1))]
    for at, name in named:
        if name not in crates:
            yield line_of(text, at), f"crates.txt has no crate {name}"


def page_faults(file):
    """Yields what `man` and `mandoc`, if they are installed, report on a manual page."""
    for words in PAGE_CHECKS:
        if shutil.which(words.split()[0]):
            command = words.format(shlex.quote(str(file)))
            environment = os.environ | {"MANWIDTH": "80", "LC_ALL": "C.UTF-8"}
            ran = subprocess.run(command, shell=True, stdout=subprocess.PIPE, env=environment, check=False)
            yield from ((1, it) for it in ran.stdout.decode(errors="replace").splitlines())


def files(top):
    """Returns the documents, and the sources and scripts whose comments are looked at."""
    documents = [top / "README.md", top / "CONTRIBUTING.md", *top.glob("docs/**/*.md"), *top.glob("man/*")]
    return sorted(documents), sorted([*top.glob("crates/*/src/**/*.rt"), *top.glob("scripts/*/*.py")])


def main(*words):
    documents, sources = files(TOP)
    values, codes, crates = list(constants()), statuses(), set(in_order(TOP))
    wrong = 0
    for file in [*documents, *sources]:
        path, text = str(file.relative_to(TOP)), file.read_text()
        found = []
        if "-a" in words or any(fnmatch.fnmatch(path, it) for it in CHECKED):
            found += old_words(path, text)
            if path == "README.md" or path.startswith("man/"):
                found += long_sentences(path, text)
        if file in documents:
            found += other_numbers(text, values)
            found += other_statuses(path, text, codes)
            found += other_crates(path, text, crates)
        if path.startswith("man/"):
            found += page_faults(file)
        for line, what in sorted(set(found)):
            print(f"{path}:{line}: {what}")
            wrong = 1
    for line in old_names(TOP):
        print(line)
        wrong = 1
    return wrong


if __name__ == "__main__":
    sys.exit(main(*sys.argv[1:]))
