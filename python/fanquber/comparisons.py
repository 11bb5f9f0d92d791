"""Which lines one of two rules derives and the other does not: what abnfd(1) writes, read."""
import re
from dataclasses import dataclass
from typing import Optional, Tuple

_SIDE = rb'"(?:[ !#-\[\]-~]|\\x[0-9A-F]{2})*"|none|none of at most \d+ letters|not known'
_ANSWER = re.compile(rb"(?:differ|not known)\n< (%b)\n> (%b)\n" % (_SIDE, _SIDE))
_ESCAPE = re.compile(rb"\\x(..)")
_PLAIN = re.compile(rb'[^ !#-\[\]-~]')


@dataclass(frozen=True)
class Alone:
    """What is known of the lines that one of two rules derives and the other does not."""

    line: Optional[bytes] = None
    """The first such line, in the order of abnfd(1): shorter ones first; None if none is known."""
    is_none: bool = False
    """Whether there is no such line, of any length."""
    none_up_to: Optional[int] = None
    """There is no such line of at most so many letters: the budget was met. None where nothing is known, and where
    `line` or `is_none` says more."""

    def __str__(self) -> str:
        """Returns the text of abnfd(1): the line in quotes, `none`, `none of at most N letters` or `not known`."""
        if self.line is not None:
            return f'"{quoted(self.line)}"'
        if self.is_none:
            return "none"
        return "not known" if self.none_up_to is None else f"none of at most {self.none_up_to} letters"


@dataclass(frozen=True)
class Comparison:
    """Which lines one of two rules derives and the other does not."""

    old_alone: Alone
    """The lines that the old rule alone derives."""
    new_alone: Alone
    """The lines that the new rule alone derives."""
    notes: Tuple[str, ...] = ()
    """The notes on both grammars, after `old:` or `new:`, none of which rejects a grammar."""

    @property
    def same(self) -> Optional[bool]:
        """Whether both rules derive the same lines; None if it is not known."""
        if self.old_alone.line is not None or self.new_alone.line is not None:
            return False
        return True if self.old_alone.is_none and self.new_alone.is_none else None

    def __str__(self) -> str:
        """Returns the text of abnfd(1), without the last line feed: `same`, or three lines."""
        if self.same:
            return "same"
        return f"{'not known' if self.same is None else 'differ'}\n< {self.old_alone}\n> {self.new_alone}"


def quoted(line: bytes) -> str:
    """Returns a line in ASCII: a byte that is a quote, a backslash or not from %x20 to %x7E is `\\xHH`."""
    return _PLAIN.sub(lambda found: b"\\x%02X" % ord(found[0]), line).decode("ascii")


def _alone(text: bytes) -> Alone:
    if text.startswith(b'"'):
        return Alone(_ESCAPE.sub(lambda found: bytes([int(found[1], 16)]), text[1:-1]))
    number = re.search(rb"\d+", text)
    return Alone(is_none=text == b"none", none_up_to=int(number[0]) if number else None)


def read_comparison(out: bytes, notes: Tuple[str, ...] = ()) -> Optional[Comparison]:
    """Returns what abnfd(1) wrote; None if it is not of its form."""
    if out == b"same\n":
        return Comparison(Alone(is_none=True), Alone(is_none=True), notes)
    found = _ANSWER.fullmatch(out)
    return Comparison(_alone(found[1]), _alone(found[2]), notes) if found else None
