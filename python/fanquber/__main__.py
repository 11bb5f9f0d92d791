"""The command `fanquber`: what stands on the proved library and is not proved itself."""
import argparse
import importlib
import pathlib
import sys
from types import ModuleType
from typing import List, Optional

from ._grammars import canonical_text
from ._library import GrammarError
from .trees import read_rules

# The packages that commands need, each with its name in Debian.
_PACKAGES = {
    "railroad": "python3-railroad-diagrams",
    "flask": "python3-flask",
    "waitress": "python3-waitress",
    "pylsp_jsonrpc": "python3-pylsp-jsonrpc",
}


def _needed(command: str) -> ModuleType:
    """Returns the module of a command, or ends the program with the package that it lacks."""
    try:
        return importlib.import_module(f"fanquber.{command}")
    except ModuleNotFoundError as fault:
        package = _PACKAGES.get((fault.name or "").partition(".")[0])
        if package is None:
            raise
        sys.exit(f"fanquber: {command} needs {fault.name}: pip install 'fanquber[{command}]' (Debian: {package})")


def kind_of(path: str) -> str:
    """Returns the kind of a grammar by the end of its file's name: `peg` for *.peg and *.leg, else `abnf`."""
    return "peg" if path.lower().endswith((".peg", ".leg")) else "abnf"


def _draw(grammar: pathlib.Path, to: Optional[pathlib.Path]) -> int:
    """Writes the page of a grammar's diagrams. The status is 2 if the grammar is rejected, and 4 if a file cannot be
    read or written."""
    diagrams, kind = _needed("diagrams"), kind_of(grammar.name)
    try:
        canonical = canonical_text(kind, grammar.read_bytes(), str(grammar))
        page = diagrams.page(kind, grammar.name, canonical, read_rules(kind, canonical))
        if to is None:
            sys.stdout.write(page)
        else:
            to.write_text(page)
    except OSError as fault:
        print(f"fanquber: {fault.filename}: {fault.strerror}", file=sys.stderr)
        return 4
    except GrammarError as fault:
        print(*fault.findings, sep="\n", file=sys.stderr)
        return 2
    return 0


def main(words: Optional[List[str]] = None) -> int:
    """Runs the command with these words, those of the command line if None, and returns its status."""
    parser = argparse.ArgumentParser(
        prog="fanquber", description="Pictures, a playground and an editor's server for grammars."
    )
    commands = parser.add_subparsers(dest="command", required=True)
    draw = commands.add_parser("diagrams", help="draws the rules of a grammar on a page of HTML")
    draw.add_argument("grammar", type=pathlib.Path, help="*.peg is of peg(1), all else ABNF")
    draw.add_argument("-o", dest="page", type=pathlib.Path, help="the page; standard output if not given")
    play = commands.add_parser("playground", help="serves a page on this machine that shows what a grammar means")
    play.add_argument("--port", type=int, default=0, help="the port on 127.0.0.1; 0 takes a free one")
    play.add_argument("--no-browser", action="store_true", help="only prints the address")
    commands.add_parser("lsp", help="serves an editor by the Language Server Protocol, on standard input and output")
    asked = parser.parse_args(words)
    if asked.command == "diagrams":
        return _draw(asked.grammar, asked.page)
    module = _needed(asked.command)
    if asked.command == "playground":
        return int(module.serve(asked.port, browser=not asked.no_browser))
    return int(module.serve())


if __name__ == "__main__":
    sys.exit(main())
