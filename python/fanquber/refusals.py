"""Why a rule does not derive a line: what `-x` says of one line, read."""
import re
from typing import List, NamedTuple, Tuple

_HEAD = re.compile(r"(?:line|record) \d+[ ,:]")
_END = re.compile(r"(?:^| or )the end of the (?:line|record)$")
# Letters stand with ` / ` between them; a text in quotes may hold a slash.
_PART = re.compile(r'(?:"[^"]*"|[^"/])+')
_MORE = re.compile(r" and (\d+) more$")
# A part that stands in place of the symbols begins with their text.
_TOLD = re.compile(r"(.*?) (?:in|of) ")
_MORE_PARTS = re.compile(r"  and (\d+) more$")


class Refusal(NamedTuple):
    """Why a rule does not derive a line."""

    at: int
    """How many letters the longest viable prefix has. The letter after it cannot stand there."""
    expected: Tuple[str, ...]
    """The symbols that can follow that prefix: names of core rules, and terms of ABNF for the rest, at most 16. Empty
    if none can, and for a line that holds both a line feed and a NUL byte, of which the whole run of a program can say
    nothing."""
    can_end: bool
    """Whether the line can end after that prefix."""
    picture: str
    """The line with a `^` below that place, in two lines; empty where there is none."""
    more: int = 0
    """How many pieces `expected` leaves out."""
    parts: Tuple[str, ...] = ()
    """The names and the terminals of rules that can come next, each with its rule, as `DIGIT in day`; at most 16."""
    more_parts: int = 0
    """How many `parts` leaves out."""

    def __str__(self) -> str:
        """Returns the refusal in words, with the picture and the parts on lines of their own."""
        more = f" and {self.more} more" if self.more else ""
        symbols, parts = " / ".join(self.expected) + more, self.parts
        if len(parts) == 1 and parts[0].startswith((f"{symbols} in ", f"{symbols} of ")):
            symbols, parts = parts[0], ()
        said = " or ".join(it for it in (symbols, "the end" if self.can_end else "") if it)
        reported = f"refused after {self.at} letters" + (f": expected {said}" if said else "")
        left = [f"and {self.more_parts} more"] if self.more_parts else []
        return "\n".join(it for it in (reported, self.picture, *parts, *left) if it)


def read_refusal(at: int, err: bytes) -> Refusal:
    """Returns what an error output written under `-x` says of the one line that was judged."""
    lines = err.decode(errors="replace").split("\n")
    first = next((number for number, it in enumerate(lines) if _HEAD.match(it)), len(lines) - 1)
    said = re.search(r"expected (.*)", lines[first])
    listed = said[1] if said else ""
    can_end = _END.search(listed) is not None
    symbols = _END.sub("", listed)
    below = [it for it in lines[first + 1 :] if it.startswith("  ")]
    has_picture = len(below) > 1 and below[1].strip() == "^"
    parts, more_parts = _read_parts(below[2:] if has_picture else below)
    told = _TOLD.match(symbols)
    if told:
        symbols, parts = told[1], (symbols,)
    left = _MORE.search(symbols)
    expected = tuple(it.strip() for it in _PART.findall(_MORE.sub("", symbols)))
    picture = "\n".join(it[2:] for it in below[:2]) if has_picture else ""
    return Refusal(at, expected, can_end, picture, int(left[1]) if left else 0, parts, more_parts)


def _read_parts(lines: List[str]) -> Tuple[Tuple[str, ...], int]:
    """Returns the parts that lines below a picture list, and how many more there are."""
    more = _MORE_PARTS.match(lines[-1]) if lines else None
    return tuple(it[2:] for it in (lines[:-1] if more else lines)), int(more[1]) if more else 0
