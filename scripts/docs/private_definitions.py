#!/usr/bin/env python3
"""Writes docs/crates/PRIVATE.md: the files of specs/ that no contract of a public function reaches.

usage: private_definitions.py [--check]

A contract reaches the definitions that it cites, and those that these cite. The contracts are those of the public
functions of each library and program, and of the methods of its public types and traits; not those of tests. Files
that models of public types alone reach are listed apart. A file is listed if none of its definitions is reached. With
--check nothing is written: the status is 1 if the document is not up to date.
"""
import collections
import pathlib
import re
import sys

from contract_index import IMPORT, TOP, functions, head_end, owner_of
from pages import exports, methods
from crates import in_order

DOCUMENT = TOP / "docs/crates/PRIVATE.md"
TESTS = re.compile(r"tests_\w+|uses")
USE = re.compile(r"^use Rattle\.(\w+)\.specs\.([\w.]+?)(?:\.\{([^}]*)\}| as (\w+))$", re.M)
DEFINED = re.compile(r" *(?:abbrev |unfoldable )*pub (?:record |data )?([^\s:]+)| *(?:abbrev )?([^\s:(]+) : ")
OPENS = re.compile(r"( *)(?:abbrev )?(?:module|mutual)\b")
MAIN = re.compile(r"^pub\(crate\) fn \w+_main\b", re.M)
MODEL = re.compile(r"^impl(?:<.*?>)? Model for (\w+).*?^}", re.M | re.S)


def split(text):
    """Yields each definition of a file: the names that it gives, and its text with the heads of the modules around."""
    names, rows, modules, indent = [], [], [], 0
    for row in text.split("\n"):
        depth = len(row) - len(row.lstrip())
        opened, found = OPENS.match(row), DEFINED.match(row)
        if opened or found and (not names or depth <= indent):
            if names:
                yield names, "\n".join(rows)
            modules = [it for it in modules if len(it) - len(it.lstrip()) < depth]
            names, rows, indent = [], list(modules), depth
        if opened:
            modules.append(row)
        elif found and (found.group(1) or found.group(2)) not in names:
            names.append(found.group(1) or found.group(2))
        rows.append(row)
    if names:
        yield names, "\n".join(rows)


def is_cited(name, words, text):
    """Says whether a text has a name; the parts of an operator stand between what it takes."""
    return name in words or "◌" in name and all(it in text for it in name.split("◌") if it)


def cited(text, names):
    words = set(re.findall(r"[^\s(){},.;]+", text))
    return [it for it in names if is_cited(it, words, text)]


class Definitions:
    """The definitions of all libraries, by file and name, and what each cites."""

    def __init__(self):
        self.own, self.whole = {}, collections.defaultdict(list)
        for crate in in_order(TOP):
            specs = TOP / "crates" / crate / "specs"
            for file in sorted(set(specs.rglob("*.antt")) - {specs / "Lib.antt"}) if not TESTS.fullmatch(crate) else []:
                code = re.sub(r"--.*", "", file.read_text())
                for names, text in split(re.sub(r"^use .*\n", "", code, flags=re.M)):
                    self.whole[file].append(names[0])
                    self.own.update({(file, it): (file, names[0], text) for it in names})
        self.uses = {file: self.imports(USE.findall(re.sub(r"--.*", "", file.read_text()))) for file in self.whole}

    def imports(self, rows):
        """Returns the file and the name of each imported name."""
        found = {}
        for crate, module, names, other in rows:
            file = TOP / "crates" / crate / "specs" / (module.replace(".", "/") + ".antt")
            for it in re.split(r",\s*", names.strip()) if names else []:
                inside, _, outside = it.partition(" as ")
                found[outside or inside] = (file, inside)
        return found

    def reached(self, roots):
        """Returns the definitions that these reach."""
        seen, left = set(), [it for it in roots if it in self.own]
        while left:
            file, name, text = self.own[left.pop()]
            if (file, name) in seen:
                continue
            seen.add((file, name))
            uses, here = self.uses[file], [it for at, it in self.own if at == file]
            left += [uses[it] for it in cited(text, uses) if uses[it] in self.own]
            left += [(file, it) for it in cited(text, here)]
        return seen


def public_heads(file, given):
    """Returns the contracts of the public functions of a source file; what a library gives out, or all of a program."""
    text = file.read_text()
    heads = [head for name, line, head in functions(text) if given is None or (owner_of(text, line) or name) in given]
    types = [it for it in re.findall(r"^pub (?:struct|enum) (\w+)", text, re.M) if given is None or it in given]
    heads += [text[it.start():head_end(text, it.start())] for it in MAIN.finditer(text)]
    return "\n".join([*heads, *(block for it in types for block in methods(text, it))])


def roots_of(definitions, crate):
    """Returns what the contracts of a crate's public functions cite, and what the models of its types cite."""
    source = TOP / "crates" / crate / "src"
    given = exports(crate) if (source / "lib.rt").is_file() else None
    heads, models = [], []
    for file in sorted(source.rglob("*.rt")):
        text = file.read_text()
        imports = definitions.imports([(*it, "") for it in IMPORT.findall(re.sub("^ +", "", text, flags=re.M))])
        heads += [imports[it] for it in cited(public_heads(file, given), imports)]
        models += [imports[it] for model in MODEL.finditer(text) for it in cited(model.group(), imports)]
    return heads, models


def listed(files):
    """Returns a line for each crate that has some of these files."""
    rows = collections.defaultdict(list)
    for file in sorted(files):
        rows[file.relative_to(TOP / "crates").parts[0]].append(f"`{file.stem}`")
    return "".join(f"- `{crate}/specs/`: {', '.join(rows[crate])}\n" for crate in in_order(TOP) if crate in rows)


def main(*words):
    definitions = Definitions()
    crates = [it for it in in_order(TOP) if not TESTS.fullmatch(it) and (TOP / "crates" / it / "src").is_dir()]
    heads, models = zip(*(roots_of(definitions, it) for it in crates))
    public = {file for file, _ in definitions.reached(sum(heads, []))}
    shown = {file for file, _ in definitions.reached(sum(models, []))} - public
    private = listed(definitions.whole.keys() - public - shown)
    text = f"# Private definitions\n\nNo contract of a public function reaches these:\n\n{private}\n"
    text += f"Models of public types alone reach these:\n\n{listed(shown)}"
    if DOCUMENT.is_file() and DOCUMENT.read_text() == text:
        return 0
    if "--check" in words:
        name = DOCUMENT.relative_to(TOP)
        print(f"{name} is not up to date: run scripts/docs/private_definitions.py", file=sys.stderr)
        return 1
    DOCUMENT.write_text(text)
    return 0


if __name__ == "__main__":
    sys.exit(main(*sys.argv[1:]))
