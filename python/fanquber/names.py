"""Where the names of a grammar's text stand. It reads any text, also one that is no grammar."""
import re
from typing import Iterator, List, NamedTuple

CORE = tuple("ALPHA BIT CHAR CR CRLF CTL DIGIT DQUOTE HEXDIG HTAB LF LWSP OCTET SP VCHAR WSP".split())
"""The core rules of RFC 5234, appendix B.1."""

_ABNF = re.compile(
    r"""(?P<skip>;[^\n]*|(?:%[si])?"[^"\n]*"|<[^>\n]*>|%[xdb][0-9a-f.-]+)|(?P<name>[a-z][a-z0-9-]*)""", re.I | re.A
)
_QUOTED = r"""#[^\r\n]*|'(?:\\.|[^'\\])*'|"(?:\\.|[^"\\])*"|\[(?:\\.|[^\]\\])*\]"""
_PEG = re.compile(rf"(?P<skip>{_QUOTED})|(?P<name>[a-z_]\w*)", re.I | re.S | re.A)
_SKIPPED = re.compile(_QUOTED, re.S)
_DEFINES = {"abnf": re.compile(r"[ \t]*=/?"), "peg": re.compile(r"\s*<-")}


class Place(NamedTuple):
    """A name in a text."""

    key: str
    """What it compares by: names of ABNF compare without case."""
    spelled: str
    at: int
    """Where it begins, in characters from 0."""
    defines: bool
    """Whether it stands before the sign that defines a rule."""


def _without_actions(text: str) -> str:
    """Returns a text of peg(1) with spaces in place of its actions."""
    kept, depth, at = list(text), 0, 0
    while at < len(text):
        skipped = None if depth else _SKIPPED.match(text, at)
        if skipped:
            at = skipped.end()
            continue
        depth += (text[at] == "{") - (text[at] == "}" and depth > 0)
        if depth or text[at] == "}":
            kept[at] = "\n" if text[at] == "\n" else " "
        at += 1
    return "".join(kept)


def places(kind: str, text: str) -> Iterator[Place]:
    """Yields the names of a text of a kind, `abnf` or `peg`, in order."""
    seen = _without_actions(text) if kind == "peg" else text
    for found in (_PEG if kind == "peg" else _ABNF).finditer(seen):
        if found["name"]:
            defines = _DEFINES[kind].match(seen, found.end()) is not None
            yield Place(key_of(kind, found["name"]), found["name"], found.start(), defines)


def key_of(kind: str, name: str) -> str:
    """Returns what a name compares by."""
    return name if kind == "peg" else name.lower()


def same(kind: str, text: str, at: int) -> List[Place]:
    """Returns the places of the name that stands at a character, in order; none if no name stands there."""
    found = list(places(kind, text))
    here = next((it for it in found if it.at <= at <= it.at + len(it.spelled)), None)
    return [it for it in found if here and it.key == here.key]


def first_rule(kind: str, text: bytes) -> str:
    """Returns the name of the first rule that a text defines; empty if it defines none."""
    return next((it.spelled for it in places(kind, text.decode("latin-1")) if it.defines), "")
