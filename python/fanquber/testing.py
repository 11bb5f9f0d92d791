"""Lines of a grammar in ABNF for Hypothesis: those that a rule derives, and those that it does not.

    from hypothesis import given
    from fanquber.testing import Lines

    URI = Lines.from_file("rfc3986.abnf", "URI")

    @given(URI.derived())
    def test_takes_what_the_standard_derives(line):
        my_parser(line)

    @given(URI.near())
    def test_agrees_with_the_standard(line):
        assert my_parser_takes(line) == URI.grammar.derives(line), URI.grammar.refusal(line)

Lines are made along the rules' trees. The grammar judges each before a test sees it, so a line of a wrong strategy
fails the test. It needs Hypothesis: `pip install fanquber[testing]`, or python3-hypothesis of Debian.
"""
from typing import Any, Callable, Dict, Optional

try:
    from hypothesis import assume
    from hypothesis import strategies as st
except ImportError as fault:
    raise ImportError("fanquber.testing needs hypothesis (Debian: python3-hypothesis)") from fault

from ._grammars import Abnf, Path
from ._library import DEFAULT_LIMIT, Letters, Text
from .trees import Tree, read_rules

# RFC 5234, appendix B.1, in canonical form
_CORE = b"""\
ALPHA = %x41-5A / %x61-7A
BIT = "0" / "1"
CHAR = %x01-7F
CR = %x0D
CRLF = CR LF
CTL = %x00-1F / %x7F
DIGIT = %x30-39
DQUOTE = %x22
HEXDIG = DIGIT / "A" / "B" / "C" / "D" / "E" / "F"
HTAB = %x09
LF = %x0A
LWSP = *(WSP / CRLF WSP)
OCTET = %x00-FF
SP = %x20
VCHAR = %x21-7E
WSP = SP / HTAB
"""
# What parsers written by hand let through most often.
_PUT = (b"\n", b"\r\n", b" ", b"\t", b"\0", b"\x7f", "\u00e9".encode(), b"0", b"a", b"-", b"%")


class Lines:
    """The lines of a rule of a grammar in ABNF: the first rule, if none is named. A line is bytes; its letters are
    bytes, or code points with `Letters.UTF8`. Raises what `Abnf` raises.

    `grammar` is the `Abnf` that judges them. No line is longer than its limit.
    """

    def __init__(
        self, text: Text, rule: Optional[str] = None, *, letters: Letters = Letters.BYTES, limit: int = DEFAULT_LIMIT
    ) -> None:
        self.grammar = Abnf(text, rule, letters=letters, limit=limit)
        rules = self.grammar.rules
        bodies = {**read_rules("abnf", _CORE), **rules}
        self._bodies = {name.lower(): body for name, body in bodies.items()}
        self._rule = (rule or next(iter(rules))).lower()
        self._utf8, self._limit = letters == Letters.UTF8, limit
        self._made: Dict[str, st.SearchStrategy[bytes]] = {}

    @classmethod
    def from_file(
        cls, path: Path, rule: Optional[str] = None, *, letters: Letters = Letters.BYTES, limit: int = DEFAULT_LIMIT
    ) -> "Lines":
        """Returns the lines of a grammar in a file. `OSError` if the file cannot be read."""
        with open(path, "rb") as file:
            return cls(file.read(), rule, letters=letters, limit=limit)

    def derived(self) -> st.SearchStrategy[bytes]:
        """Returns lines that the rule derives. `ValueError` at the first line if it needs prose."""
        return self._named(self._rule).map(self._checked)

    def near(self) -> st.SearchStrategy[bytes]:
        """Returns derived lines, and such with one change: a piece left out, put in or replaced."""
        return st.one_of(self.derived(), self._changed())

    def refused(self) -> st.SearchStrategy[bytes]:
        """Returns lines with one change that the rule does not derive. `Unsatisfiable` where it derives nearly all."""
        return self._changed().filter(lambda line: len(line) <= self._limit and not self.grammar.derives(line))

    def _changed(self) -> "st.SearchStrategy[bytes]":
        at = st.one_of(st.just(-1), st.integers(0, 200))
        put = st.one_of(st.sampled_from(_PUT), st.binary(max_size=2))
        return st.builds(_changed, self.derived(), at, st.integers(0, 3), put)

    def _checked(self, line: bytes) -> bytes:
        assume(len(line) <= self._limit)
        assert self.grammar.derives(line), f"the strategy made a line that the rule does not derive: {line!r}"
        return line

    def _named(self, name: str) -> "st.SearchStrategy[bytes]":
        key = name.lower()
        if key not in self._made:
            self._made[key] = st.deferred(lambda: self._of(self._bodies[key]))
        return self._made[key]

    def _of(self, tree: Tree) -> "st.SearchStrategy[bytes]":
        made: Callable[..., "st.SearchStrategy[bytes]"] = getattr(self, "_of_" + tree[0])
        return made(*tree[1:])

    def _of_name(self, name: str) -> "st.SearchStrategy[bytes]":
        return self._named(name)

    def _of_or(self, *parts: Tree) -> "st.SearchStrategy[bytes]":
        return st.one_of([self._of(it) for it in parts])

    def _of_cat(self, *parts: Tree) -> "st.SearchStrategy[bytes]":
        return st.tuples(*map(self._of, parts)).map(b"".join)

    def _of_opt(self, tree: Tree) -> "st.SearchStrategy[bytes]":
        return st.one_of(st.just(b""), self._of(tree))

    def _of_rep(self, least: int, most: Optional[int], tree: Tree) -> "st.SearchStrategy[bytes]":
        if most is not None and most < least:
            return st.nothing()
        return st.lists(self._of(tree), min_size=least, max_size=most).map(b"".join)

    def _of_text(self, text: str) -> "st.SearchStrategy[bytes]":
        cases = [st.sampled_from(sorted({it.lower(), it.upper()})) for it in text]
        return st.tuples(*cases).map(lambda it: "".join(it).encode())

    def _of_exact(self, text: str) -> "st.SearchStrategy[bytes]":
        return st.just(text.encode())

    def _of_values(self, *values: int) -> "st.SearchStrategy[bytes]":
        if not all(map(self._is_letter, values)):
            return st.nothing()
        return st.just(b"".join(map(self._spelled, values)))

    def _of_range(self, first: int, last: int) -> "st.SearchStrategy[bytes]":
        most = min(last, 0x10FFFF if self._utf8 else 0xFF)
        if first > most:
            return st.nothing()
        return st.integers(first, most).filter(self._is_letter).map(self._spelled)

    def _of_prose(self, text: str) -> Any:
        raise ValueError(f"no line can be made of prose: <{text}>")

    def _is_letter(self, value: int) -> bool:
        return (value <= 0x10FFFF and not 0xD800 <= value <= 0xDFFF) if self._utf8 else value <= 0xFF

    def _spelled(self, value: int) -> bytes:
        return chr(value).encode() if self._utf8 else bytes([value])


def _changed(line: bytes, at: int, gone: int, put: bytes) -> bytes:
    """Returns a line with `gone` bytes left out and `put` in their place, at a byte, or at the end for -1."""
    at = at % (len(line) + 1)
    return line[:at] + put + line[at + gone :]
