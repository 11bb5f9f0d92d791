#!/usr/bin/env python3
"""Writes what the pages of the libraries, docs/crates/NAME.md, quote from the sources.

usage: pages.py [--check]

A page has sentences written by hand, and blocks between two markers, of which the first says what the block quotes:

    contracts: NAME ..   the public types and functions of the library: those named, in that order, and then the others
    callers              the callers of the library in the crate `uses`
    laws                 the laws of the library: functions that take nothing and return nothing
    definitions          the files of specs/ whose definitions the contracts cite

A library without a page gets one. With --check nothing is written: each page that is not up to date is named, and the
status is 1.
"""
import pathlib
import re
import sys

sys.path.insert(0, str(pathlib.Path(__file__).resolve().parents[1]))  # scripts/, for what groups share
from contract_index import OWNER, TOP, definitions, functions, head_end, owner_of
from crates import in_order

PAGES = TOP / "docs" / "crates"
# Crates that show how to call the others, or test them.
NO_LIBRARY = re.compile(r"tests_\w+|uses")
BLOCK = re.compile(r"<!-- (contracts:[^>]*|callers|laws|definitions) -->\n.*?<!-- end -->", re.S)
EXPORT = re.compile(r"^pub use (\w+)::(?:(\w+(?: as \w+)?);|\{(.*?)\};)", re.M | re.S)
FUNCTION = re.compile(r'^pub (?:extern "C" )?fn (\w+)', re.M)
DECLARED = r"^pub (?:struct|enum|trait|const|static|type) {}\b"
LAW = re.compile(r"(?:pub )?fn \w+(?:<[^<>]*>)?\(\)(?! *->)")


def libraries():
    """Returns the names of the libraries, each after those that it uses."""
    has_source = lambda it: (TOP / "crates" / it / "src/lib.rt").is_file()
    return [it for it in in_order(TOP) if has_source(it) and not NO_LIBRARY.fullmatch(it)]


def given_by(file, folder):
    """Returns what a module gives out, where its own modules stand in the folder: by the name outside, the source file
    and the name there; None for another crate's."""
    given = {}
    for module, one, many in EXPORT.findall(file.read_text()):
        source = folder / f"{module}.rt"
        nested = given_by(source, folder / module) if (folder / module).is_dir() else {}
        for it in re.split(r",\s*", (one or many).strip(", \n")):
            inside, _, outside = it.partition(" as ")
            own = (source, inside) if source.is_file() else (None, f"{module}::{inside}")
            given[outside or inside] = nested.get(inside, own)
    return given


def exports(crate):
    """Returns what a library gives out, as `given_by` does, and the functions of its root file."""
    source = TOP / "crates" / crate / "src"
    root = source / "lib.rt"
    return given_by(root, source) | {it: (root, it) for it in FUNCTION.findall(root.read_text())}


def with_docs(text, start):
    """Returns where the doc lines and attributes above an item begin."""
    while start > 0:
        above = text.rfind("\n", 0, start - 1) + 1
        if not re.match(r" *(///|#\[)", text[above:start]):
            break
        start = above
    return start


def closed(text, start):
    """Returns where an item ends: after the bracket that closes it, or after its `;`."""
    depth = 0
    for place in range(start, len(text)):
        depth += (text[place] in "([{") - (text[place] in ")]}")
        if depth == 0 and (text[place] == "}" or text[place] == ";"):
            return place + 1
    return len(text)


def public_part(declared):
    """Returns a declaration without its private fields; `..` stands for them."""
    head, brace, fields = declared.partition(" {\n")
    if "pub struct" not in head or not brace:
        return declared
    kept, hidden, docs = [], False, []
    for row in fields.split("\n")[:-1]:
        if re.match(r"    (///|#\[)", row):
            docs.append(row)
        elif re.match(r"    \w", row) and not re.match(r"    (pub|ghost) ", row):
            hidden, docs = True, []
        else:
            kept, docs = kept + docs + [row], []
    if not hidden:
        return declared
    return "\n".join([head + " {", *[it for it in kept if not it.startswith("    ghost ")], "    ..", "}"])


def head_of(text, start):
    """Returns the doc lines and the whole head of the function that begins in the row of a place."""
    row = text.rfind("\n", 0, start) + 1
    return text[with_docs(text, row):head_end(text, start)].rstrip() + ";"


def methods(text, name):
    """Returns the functions of the blocks `impl NAME` that are public, and of `impl TRAIT for NAME` those with clauses
    of their own; each block with its first row."""
    for block in re.finditer(r"^impl\b[^\n]*\{\n(.*?)^\}", text, re.M | re.S):
        first = block.group().split("\n")[0]
        owner, of_trait = OWNER.match(first), " for " in first
        if not owner or owner.group(1) != name:
            continue
        heads = re.finditer(r"^    (?:pub )?fn \w", block.group(1), re.M)
        found = [head_of(text, block.start(1) + it.start()) for it in heads
                 if of_trait or it.group().startswith("    pub")]
        found = [it for it in found if not of_trait or "\n        ensures" in it]
        if found:
            yield first + "\n" + "\n\n".join(found) + "\n}"


def view_of(text, name):
    """Returns the row that says what contracts see of a type; nothing where they see its fields."""
    model = re.search(r"^impl(?:<.*?>)? Model for %s\b.*?^    (ghost Value = \{.*?\};)" % name, text, re.M | re.S)
    return f"// contracts see it by its model: {model.group(1)}\n" if model else ""


def quoted(file, name):
    """Returns the texts of a public item: a function's head, or a type with the functions of its own."""
    text = file.read_text()
    function = re.search(r'^pub (?:extern "C" )?fn %s\b' % name, text, re.M)
    if function:
        return [head_of(text, function.start())]
    declared = re.search(DECLARED.format(name), text, re.M)
    if not declared:
        raise SystemExit(f"{file}: no public item '{name}'")
    start = with_docs(text, declared.start())
    whole = text[start:closed(text, declared.start())]
    return [view_of(text, name) + public_part(whole), *methods(text, name)]


def is_law(file, name):
    found = re.search(r"^pub fn %s\b" % name, file.read_text(), re.M)
    return bool(found and LAW.match(file.read_text(), found.start()))


def block_of(texts):
    """Returns a block of code, with an empty row between two texts."""
    return "```rust\n" + "\n\n".join(texts) + "\n```\n" if texts else "None.\n"


def item_texts(given, name):
    """Returns the texts of an item, under a row that says its name outside if that is another."""
    file, inside = given[name]
    texts = quoted(file, inside)
    return [f"// the library gives it out as `{name}`\n" + texts[0], *texts[1:]] if inside != name else texts


def contracts(crate, first):
    """Returns the public items of a library, those of the given names first."""
    given = exports(crate)
    own = [it for it, (file, inside) in given.items() if file and not is_law(file, inside)]
    for it in first:
        if it not in own:
            raise SystemExit(f"docs/crates/{crate}.md: the library has no public item '{it}'")
    order = [*first, *(it for it in own if it not in first)]
    passed = [f"`{path}`" for file, path in given.values() if not file]
    reported = f"It passes on {', '.join(passed)}.\n\n" if passed else ""
    return reported + block_of([text for it in order for text in item_texts(given, it)])


def laws(crate):
    given = exports(crate)
    return block_of([text for it, (file, inside) in given.items() if file and is_law(file, inside)
                     for text in item_texts(given, it)])


def callers(crate):
    """Returns the files of the crate `uses` whose first row names the library."""
    texts = []
    for file in sorted((TOP / "crates/uses/src").glob("*_caller.rt")):
        first, _, rest = file.read_text().partition("\n")
        if f"`{crate}`" in first:
            texts.append(f"// {file.relative_to(TOP)}\n{rest.strip()}")
    return block_of(texts)


def cited(crate):
    """Returns the files of definitions that the contracts of a library cite, with the names that they cite."""
    given, found = exports(crate), {}
    for file in sorted({file for file, _ in given.values() if file}):
        text = file.read_text()
        for name, line, head in functions(text):
            if name in given or owner_of(text, line) in given:
                for path, names in definitions(text, head):
                    found.setdefault(path, set()).update(names)
    names = {path: ", ".join(f"`{it}`" for it in sorted(found[path])) for path in sorted(found)}
    rows = [f"- `{path.relative_to(TOP)}`: {names[path]}" for path in names]
    return "\n".join(rows) + "\n" if rows else "None.\n"


def filled(crate, page):
    """Returns the page with its blocks as the sources are now."""
    writers = {"callers": callers, "laws": laws, "definitions": cited}

    def block(found):
        kind, _, names = found.group(1).partition(":")
        text = contracts(crate, names.split()) if kind == "contracts" else writers[kind](crate)
        return f"<!-- {found.group(1)} -->\n{text}<!-- end -->"

    return BLOCK.sub(block, page)


def new_page(crate):
    """Returns the page of a library that has none: its first sentence, and empty blocks."""
    rows = re.match(r"(?://! .*\n)+", (TOP / "crates" / crate / "src/lib.rt").read_text()).group()
    said = re.split(r"(?<=\.) ", rows.replace("//! ", "").replace("\n", " ").strip())[0]
    parts = ["Types and functions", "contracts: ", "A caller", "callers", "Laws", "laws", "Definitions", "definitions"]
    blocks = [f"## {title}\n\n<!-- {kind} -->\n<!-- end -->\n" for title, kind in zip(parts[::2], parts[1::2])]
    return f"# `{crate}`\n\n{said}\n\n" + "\n".join(blocks)


def main(*words):
    stale = []
    for crate in libraries():
        file = PAGES / f"{crate}.md"
        old = file.read_text() if file.is_file() else ""
        new = filled(crate, old or new_page(crate))
        if new != old:
            stale.append(file)
            if "--check" not in words:
                file.parent.mkdir(parents=True, exist_ok=True)
                file.write_text(new)
    for file in stale if "--check" in words else []:
        print(f"{file.relative_to(TOP)} is not up to date: run scripts/docs/pages.py", file=sys.stderr)
    return 1 if stale and "--check" in words else 0


if __name__ == "__main__":
    sys.exit(main(*sys.argv[1:]))
