#!/usr/bin/env python3
"""Lists what breaks the rules of names and sizes, one line each, and fails where something does.

usage: names.py
"""
import collections
import os
import pathlib
import re
import sys

sys.path.insert(0, str(pathlib.Path(__file__).resolve().parents[1]))  # scripts/, for what groups share
from crates import below, longest_chain, parts

LONGEST_LINE = 120
LONGEST_FILE = 800
# A file of a function's proof has its name from the prover, and the head of a folder from the language.
MIRRORS = {"Answers.antt", "Invariants.antt", "Proof.antt", "Lib.antt"}
# Nouns that end as gerunds do.
NOUNS = {"Nothing", "Spelling"}
# Participles that do not end in `ed`.
PARTICIPLES = {"Begun", "Chosen", "Kept", "Left", "Made", "Read", "Said", "Taken", "Written"}
# What begins a block: its lines stand further in.
BLOCK = re.compile(r"(?:(?:pub|unfoldable) )*(?:(abbrev) )?(?:pub )?(?:(data|record)|module|mutual)\b(?! *\{)")
# A name of one word, and what it says, which may begin on the next line.
ONE_WORD = re.compile(r"(?:(?:private|pub|unfoldable) )*([a-z][A-Za-z0-9]*)(?: :(?: |$)|$)")
# A definition's name, at the margin of a file of specs/.
DEFINITION = re.compile(r"(?:(?:unfoldable|abbrev|pub|data|record) )+([^\s(){}:.]+)")
# A type's name, at the margin of a file of code.
TYPE = re.compile(r"^(?:pub(?:\([a-z]+\))? )?(?:struct|enum|trait|type) (\w+)", re.M)
# Crates of the two grammar languages, which call what is the same in both by one name, and the crates on which both
# stand and whose words they speak.
LANGUAGES = (
    {"abnfread", "abnfprint", "abnfexplain", "abnfcheck", "abnfrun", "flatgrammar", "lowering"},
    {"pegread", "pegprint", "pegexplain", "pegnodes", "gramcheck", "pegrun", "pegmatch"},
    {"diagnostics", "fixpoint", "lexer", "ruletable", "toolrun"},
)
# Names that stand in crates of one language, or in crates that speak of something else each; agreed, and not to grow.
TWINS = set(
    """
    Adds allows AreBelow AreCallers AreDifferent AreGrown AreOrdered AreReaders AreWaiting AreWithin after
    Begins
    Chain Closes Drops ended Finishes GoesOn Grammar Grows IsAdded IsBegun IsBuilt IsClosing IsCut IsFirst IsHead IsIn
    IsLast IsNext IsOver IsPart IsPrinted IsRanked IsStart IsStep IsTable IsTaken Names Piece
    Position Reads Says Way Writes empty head_of is_blank key_of members_of node_of pair position_of positions_of row_of
    run_text dots_of steps_of taken_at unit_of unmarked way_of
    """.split()
)
# Words of the old dialect, which no name has, and names of the standard library and of the prover that have one.
OLD_WORDS = set(
    "told tell tells telling behind spot spots deed deeds hop hops beginning beginnings place places turn turns".split()
    + "unfold unfolds home homes".split()
)
# Words of the old dialect that no name of these crates has, and that others have for something else.
OLD_IN = {
    "earley earleyitems flatgrammar": "head heads block blocks inner root roots",
    "lazydfa": "front fronts",
    "rulelines": "part parts front fronts",
    "matchfailure memo packrat pegnodes": "pair pairs",
}
OLD_NAMES = {"eqb_tells", "handle_tells", "told", "appended_in_turn", "in_turn"}
NAME = re.compile(r"[A-Za-z_]\w*")
WORD = re.compile(r"[A-Z]?[a-z]+|[A-Z]+(?![a-z])")
NO_CODE = re.compile(r"""b?'(?:\\.|[^'\\\n])'|(?://|--)[^\n]*|["](?:\\.|[^"\\])*["]""")
# The most crates of the workspace, and the most that a chain of uses has which ends in a program. A program is a crate
# of its own, as `abnfd` and `abnfg`. `rfcforms` reads XML, since `abnfblocks` and `abnftexts` are full. In `rfcforms`
# the functions of `rfcvalues` would be 124 with its own, and `abnfblocks` would wait for `abnfexplain`. In `rulelines`
# those of `coverlines` would be 174 with its own; each library below `abnfg` with room is proved for `abnfi` too. In
# `cli` the functions of `findings` would be 125 with its own.
MOST_CRATES = 48
LONGEST_CHAIN = 10
# The programs, each with the parts of crates.txt of which it uses nothing, and the most crates below it.
PROGRAMS = {
    "pegi": ({"ABNF", "RFCs"}, None),
    "abnfi": ({"peg", "RFCs"}, None),
    "abnfx": ({"peg"}, 16),
    "abnfd": ({"peg", "RFCs"}, None),
    "abnfg": ({"peg", "RFCs"}, None),
}
# The most functions that a crate has, and the crates that have more: so many each. Tests count for nothing.
LARGEST_CRATE = 105
# lazydfa: `States`, its cuts, `expected`, `awaited`, `prune` and `kernels` need what `Automaton` has, and a crate of
# their own would make it public.
# earley: `awaited_at` needs sets kept as rows, which `Chart` does not show.
# abnftexts: its functions on values and on the list need what `Gathered` has.
# pegexplain: its hints need what its notes have, and a crate of their own would be the 49th.
# refusedlines: the list of parts and their texts need what `Following` and the pruned grammar have.
# pegnodes: whether a grammar is predictive is asked where its keys are found.
LARGER = {
    "earley": 111, "lazydfa": 152, "abnftexts": 130, "pegexplain": 132, "refusedlines": 114, "pegnodes": 147,
}
# The most entries that a folder has, and the folders that have more.
LARGEST_FOLDER = 40
WIDER = {
    "crates": MOST_CRATES, "docs/crates": MOST_CRATES, "must-fail": MOST_CRATES, "crates/fixpoint/proofs": 44,
    "crates/lazydfa/proofs": 48, "scripts/oracles/rfc_texts": 48, "crates/packrat/proofs": 46,
    "crates/pegnodes/proofs": 43,
}
# Folders that hold no sources.
BUILT = {".git", "__pycache__", "bin", "out"}
TEXTS = {".antt", ".edit", ".md", ".py", ".rt", ".sh"}


def sources(top):
    """Returns the repository's files, as paths from its top, without what a build leaves."""
    found = []
    for folder, folders, names in os.walk(top):
        folders[:] = sorted(it for it in set(folders) - BUILT if not it.startswith(".prove-"))
        found += [pathlib.PurePath(folder, it).relative_to(top) for it in sorted(names)]
    return found


def is_proof(path):
    """Returns whether the file has lemmas of several functions."""
    parts = path.parts
    return len(parts) == 4 and parts[0] == "crates" and parts[2] == "proofs" and path.name not in MIRRORS


def definitions(top, files):
    """Returns the names of the definitions and functions, without case, `_` and `-`."""
    found = set()
    for path in files:
        if path.suffix not in (".antt", ".rt"):
            continue
        text = (top / path).read_text()
        if path.suffix == ".rt":
            names = re.findall(r"\b(?:fn|struct|enum|trait) (\w+)", text)
        else:
            names = re.findall(r"^ *(?:(?:unfoldable|abbrev|pub|data|record) )*([^\s(){}:]+)[^\n]* : ", text, re.M)
        found.update(re.sub(r"[_-]", "", it).lower() for it in names)
    return found


def words(name):
    """Returns the words of a name in camel case."""
    return re.findall(r"[A-Z][a-z0-9]*", name)


def of_lemma_names(files, known):
    """Yields what breaks the rules of the names of lemma files."""
    for path in filter(is_proof, files):
        found = re.fullmatch(r"([A-Z][A-Za-z0-9]*)(?:Lemmas|Examples)", path.stem)
        if not found:
            yield f"{path}: a file of lemmas is named SUBJECTLemmas.antt, one of worked examples SUBJECTExamples.antt"
            continue
        subject = words(found.group(1))
        if subject[-1].endswith("ing") and subject[-1] not in NOUNS:
            yield f"{path}: `{subject[-1]}` is a gerund"
        alone = len(subject) == 1 and (subject[0].endswith("ed") or subject[0] in PARTICIPLES)
        if alone and found.group(1).lower() not in known:
            yield f"{path}: `{subject[0]}` is a participle, and no definition's name"


def functions(top, files):
    """Returns the names of the workspace's functions."""
    return {
        name
        for path in files
        if path.suffix == ".rt"
        for name in re.findall(r"\bfn (\w+)", (top / path).read_text())
    }


def of_served(top, files):
    """Yields what breaks the rule that line 2 of a lemma file names the functions that it serves."""
    known = functions(top, files)
    for path in filter(is_proof, files):
        if not path.stem.endswith("Lemmas"):
            continue
        lines = (top / path).read_text().splitlines()
        found = re.fullmatch(r"-- Serves: (.+?)\.?", lines[1]) if len(lines) > 1 else None
        if not found:
            yield f"{path}:2: the line is not `-- Serves: ` and public functions"
            continue
        # A clause may follow a function in brackets, and the crate of functions above, as in `f (c), g; h of crate`.
        for name in re.split("[,;] ", re.sub(r" \([^)]*\)| of \w+", "", found.group(1))):
            if name.rpartition("::")[2] not in known:
                yield f"{path}:2: `{name}` is no function"


def lemmas_of_one_word(lines):
    """Yields the names of one word that lemmas have, each with its line. Fields, constructors, what an `abbrev` block
    defines and what is local to a lemma are no lemmas."""
    blocks = []
    for number, line in enumerate(lines, 1):
        text = line.lstrip()
        if not text or text.startswith("--"):
            continue
        indent = len(line) - len(text)
        while blocks and indent <= blocks[-1][0]:
            blocks.pop()
        has_lemmas = not blocks or blocks[-1][1]
        block = BLOCK.match(text)
        if block:
            blocks.append((indent, not block.group(1) and not block.group(2)))
        elif text == "where" or (text.endswith(" where") and has_lemmas):
            blocks.append((indent, False))
        elif has_lemmas:
            found = ONE_WORD.match(text)
            if found and (":" in text or number < len(lines) and lines[number].lstrip().startswith(":")):
                yield number, found.group(1)


def of_short_names(top, files):
    """Yields the lemmas whose name has one word."""
    for path in files:
        parts = path.parts
        if parts[0] != "crates" or len(parts) < 4 or parts[2] != "proofs" or path.name in MIRRORS:
            continue
        if path.suffix == ".antt":
            for number, name in lemmas_of_one_word((top / path).read_text().splitlines()):
                yield f"{path}:{number}: `{name}` is one word"


def of_twins(files):
    """Yields the names that more than one file of lemmas or definitions has."""
    places = collections.defaultdict(list)
    for path in files:
        if path.suffix == ".antt" and path.name not in MIRRORS:
            places[path.name].append(path)
    for name, paths in sorted(places.items()):
        if len(paths) > 1:
            yield f"{name}: {', '.join(map(str, paths))}"


def crates_that_define(top, files):
    """Returns, for each name of a definition, the crates in whose specs/ it stands."""
    found = collections.defaultdict(set)
    for path in files:
        if path.suffix == ".antt" and path.parts[0] == "crates" and path.parts[2] == "specs":
            for line in (top / path).read_text().splitlines():
                match = DEFINITION.match(line)
                if match and match[1] not in ("mod", "mutual", "use"):
                    found[match[1]].add(path.parts[1])
    return found

def is_one_of_each(crates):
    """Returns whether the crates are one of each language, or of the crates on which both stand."""
    by_language = [len(crates & language) for language in LANGUAGES]
    return sum(by_language) == len(crates) and max(by_language, default=0) <= 1



def of_twin_definitions(top, files):
    """Yields the definitions whose name stands in two crates, unless these are one of each language or it is agreed."""
    for name, crates in sorted(crates_that_define(top, files).items()):
        if len(crates) > 1 and not is_one_of_each(crates) and name not in TWINS:
            yield f"{name}: {', '.join(sorted(crates))}"


def of_twin_types(top, files):
    """Yields the types whose name stands in two crates, unless these are one of each language."""
    found = collections.defaultdict(set)
    for path in files:
        if path.suffix == ".rt" and path.parts[0] == "crates":
            for name in TYPE.findall((top / path).read_text()):
                found[name].add(path.parts[1])
    for name, crates in sorted(found.items()):
        if len(crates) > 1 and not is_one_of_each(crates):
            yield f"{name}: {', '.join(sorted(crates))}"


def of_old_words(top, files):
    """Yields the names that have a word of the old dialect, each with the first file that has it."""
    found = {}
    old_in = {crate: set(words.split()) for crates, words in OLD_IN.items() for crate in crates.split()}
    for path in files:
        if path.suffix in {".rt", ".antt"}:
            old = OLD_WORDS | old_in.get(path.parts[1], set())
            for name in NAME.findall(NO_CODE.sub("", (top / path).read_text())):
                if old.intersection(it.lower() for it in WORD.findall(name)) and name not in OLD_NAMES:
                    found.setdefault(name, path)
    yield from (f"{path}: {name}" for name, path in sorted(found.items()))


def of_large_crates(top, files):
    """Yields the crates that have too many functions."""
    count = collections.Counter()
    for path in files:
        if path.suffix == ".rt" and path.parts[0] == "crates":
            text = (top / path).read_text()
            count[path.parts[1]] += len(re.findall(r"^ *(?:pub(?:\([a-z]+\))? )?(?:const )?fn ", text, re.M))
            count[path.parts[1]] -= text.count("#[test]")
    for crate, functions_of_it in sorted(count.items()):
        if functions_of_it > LARGER.get(crate, LARGEST_CRATE):
            yield f"{crate}: {functions_of_it} functions"


def of_uses(top):
    """Yields what breaks the rules of the crates' number and of what the programs stand on."""
    of_part = parts(top)
    count = sum(map(len, of_part.values()))
    if count > MOST_CRATES:
        yield f"{count} crates, of at most {MOST_CRATES}"
    for program, (others, most) in PROGRAMS.items():
        used = below(top, program)
        chain = longest_chain(top, program)
        if len(chain) > LONGEST_CHAIN:
            yield f"{program}: a chain of {len(chain)} crates: {' '.join(chain)}"
        for part in sorted(others):
            wrong = sorted(used.intersection(of_part[part]))
            if wrong:
                yield f"{program} uses crates of {part}: {' '.join(wrong)}"
        if most is not None and len(used) > most:
            yield f"{program} uses {len(used)} crates, of at most {most}"


def of_wide_folders(files):
    """Yields the folders that have too many entries."""
    entries = collections.defaultdict(set)
    for path in files:
        for parent, child in zip(path.parents, [path, *path.parents]):
            entries[parent].add(child.name)
    for folder, names in sorted(entries.items()):
        if len(names) > WIDER.get(str(folder), LARGEST_FOLDER):
            yield f"{folder}: {len(names)} entries"


def of_long_files(top, files):
    """Yields the files that have too many lines."""
    for path in files:
        if path.suffix in TEXTS - {".md"}:
            count = len((top / path).read_text().splitlines())
            if count > LONGEST_FILE:
                yield f"{path}: {count} lines"


def is_long(line):
    """Returns whether a line is too long; the formatter keeps an attribute on one line."""
    return len(line) > LONGEST_LINE and not line.lstrip().startswith("#[")


def of_long_lines(top, files):
    """Yields the files that have lines that are too long, each with their count."""
    for path in files:
        if path.suffix in TEXTS - {".edit", ".md"}:
            count = sum(map(is_long, (top / path).read_text().splitlines()))
            if count:
                yield f"{path}: {count} lines of more than {LONGEST_LINE} characters"


def main():
    """Prints what breaks the rules, by rule, and returns 1 where something does."""
    top = pathlib.Path(__file__).resolve().parents[2]
    files = sources(top)
    rules = {
        "names of lemma files": of_lemma_names(files, definitions(top, files)),
        "the functions that lemma files serve": of_served(top, files),
        "lemmas whose name is one word": of_short_names(top, files),
        "names that stand more than once": of_twins(files),
        "definitions whose name stands in two crates": of_twin_definitions(top, files),
        "types whose name stands in two crates": of_twin_types(top, files),
        "names with a word of the old dialect": of_old_words(top, files),
        "the number of crates, and what programs use": of_uses(top),
        f"crates of more than {LARGEST_CRATE} functions": of_large_crates(top, files),
        f"folders of more than {LARGEST_FOLDER} entries": of_wide_folders(files),
        f"files of more than {LONGEST_FILE} lines": of_long_files(top, files),
        f"lines of more than {LONGEST_LINE} characters": of_long_lines(top, files),
    }
    broken = 0
    for rule, found in rules.items():
        found = list(found)
        broken += len(found)
        print(f"{rule}: {len(found) or 'none'}")
        for it in found:
            print(f"  {it}")
    return 1 if broken else 0


if __name__ == "__main__":
    sys.exit(main())
