"""What the programs say of a grammar or an input, with its place: the text of `-x`, read."""
import re
from typing import Iterator, List, NamedTuple, Optional, Pattern, Tuple

# The first line of a message on a grammar, its code, and its severity. That of `?` shows in the explanation.
_OF_GRAMMAR = [
    (r"line (?P<line>\d+): (?P<fault>syntax error)", "syntax", "error"),
    (r"line (?P<line>\d+): (?P<fault>nested too deeply)", "nested", "error"),
    (r"line (?P<line>\d+): (?P<fault>number too large)", "number", "error"),
    (r"line (?P<line>\d+): (?P<fault>code predicate)", "code-predicate", "error"),
    (r"grammar too long", "too-long", "error"),
    (r"rule '(?P<rule>[^']*)' redefined", "redefined", "error"),
    (r"rule '(?P<rule>[^']*)' used but not defined", "undefined", "?"),
    (r"rule '(?P<rule>[^']*)' defined but not used", "unused", "warning"),
    (r"rule '(?P<rule>[^']*)' extended before it is defined", "extended", "warning"),
    (r"prose in rule '(?P<rule>[^']*)'", "prose", "?"),
    (r"possible infinite left recursion in rule '(?P<rule>[^']*)'", "left-recursion", "error"),
    (r"possible infinite loop in rule '(?P<rule>[^']*)'", "loop", "error"),
    (r"rule '(?P<rule>[^']*)' derives nothing", "derives-nothing", "warning"),
    (r"rule '(?P<rule>[^']*)' derives no (?:line|record)", "no-line", "warning"),
    (r"reversed numbers in rule '(?P<rule>[^']*)'", "reversed", "warning"),
    (r"alternative never taken in rule '(?P<rule>[^']*)'", "never-taken", "warning"),
    (r"action holds a definition in rule '(?P<rule>[^']*)'", "held-definition", "warning"),
    (r"\">\" without \"<\" in rule '(?P<rule>[^']*)'", "no-begin", "warning"),
]
# The first line of a message on an input. Lines and letters are counted from 1, bytes from 0.
_OF_INPUT = [
    (r"(?:line|record) (?P<line>\d+)(?:, letter (?P<letter>\d+))?(?:[^:]*): (?P<fault>.*)", "refused"),
    (r"(?:line|record) (?P<line>\d+) (?P<fault>longer than \d+ bytes)", "too-long"),
    (r"(?P<fault>unit at byte \d+ longer than \d+ bytes)", "too-long"),
    (r"(?P<fault>no match at byte \d+)", "no-match"),
    (r"(?P<fault>more refused (?:lines|records): \d+)", "refused"),
    (r"(?P<fault>read error|write error|out of memory|cannot read the grammar)", "failed"),
]
_NOTE = re.compile(r"line (\d+): (.*)")
_BYTE = re.compile(r"byte \d+, line (\d+), column (\d+)")
_COLUMN = re.compile(r"column (\d+): (.*)")


class Note(NamedTuple):
    """A line of the grammar that explains a finding, counted from 1, and what it has."""

    line: int
    message: str


class Finding(NamedTuple):
    """A message on a grammar or an input."""

    file: str
    """The file of the grammar; empty if it is none."""
    line: Optional[int]
    """The line, from 1; None if the message has none."""
    column: Optional[int]
    """The column, in bytes from 1, of an input of ABNF in letters; None if the message has none."""
    severity: str
    """`error` if the grammar or the input is rejected for it, else `warning`."""
    code: str
    """Which message it is: one word, as `syntax`, `undefined` or `refused`."""
    message: str
    """The message, without its place."""
    about: str
    """`grammar` or `input`."""
    more: Tuple[str, ...]
    """The lines that explain the message, as `-x` writes them, without their indentation."""

    @property
    def notes(self) -> List[Note]:
        """The lines of the grammar that explain the message."""
        found = (_NOTE.fullmatch(it) for it in self.more)
        return [Note(int(it[1]), it[2]) for it in found if it]

    @property
    def rule(self) -> str:
        """The name of the rule that the message is about; empty if it is about none."""
        named = re.search(r"rule '([^']*)'", self.message)
        return named[1] if named else ""

    def __str__(self) -> str:
        """Returns the finding as compilers write it: `FILE:LINE:COLUMN: severity: message [code]`."""
        place = f"{self.file or self.about}:{self.line or 1}:{self.column or 1}"
        return f"{place}: {self.severity}: {self.message} [{self.code}]"


def read_findings(err: bytes, file: str = "", judged: str = "") -> List[Finding]:
    """Returns the findings that an error output written under `-x` has. `judged` is the judged rule of a grammar in
    ABNF: prose in it rejects the grammar. Pass an empty one for a grammar of peg(1), where each name needs a rule."""
    return [_finding(group, file, judged) for group in _groups(err.decode("latin-1"))]


def _groups(err: str) -> Iterator[List[str]]:
    """Yields each first line with the indented lines after it."""
    group: List[str] = []
    for line in err.split("\n"):
        if line.startswith("  ") and group:
            group.append(line[2:])
        elif line:
            if group:
                yield group
            group = [line]
    if group:
        yield group


def _first(pattern: Pattern[str], lines: Tuple[str, ...]) -> Optional["re.Match[str]"]:
    """Returns the first match that begins one of the lines."""
    return next((it for it in map(pattern.match, lines) if it), None)


def _finding(group: List[str], file: str, judged: str) -> Finding:
    first, more = group[0], tuple(group[1:])
    for pattern, code, severity in _OF_GRAMMAR:
        found = re.fullmatch(pattern, first)
        if found:
            named = found.groupdict()
            if severity == "?":
                severity = "error" if _rejects(code, named["rule"], more, judged) else "warning"
            return _of_grammar(file, code, severity, first, more, named)
    for pattern, code in _OF_INPUT:
        found = re.fullmatch(pattern, first)
        if found:
            return _of_input(code, more, found.groupdict())
    return Finding(file, None, None, "warning", "other", first, "grammar", more)


def _rejects(code: str, rule: str, more: Tuple[str, ...], judged: str) -> bool:
    """Returns whether a name without a rule, or prose, rejects the grammar: the judged rule comes to it."""
    if not judged:
        return True
    reached = any(it.startswith(("reached by", "given by -s")) for it in more)
    return reached or (code == "prose" and rule.lower() == judged.lower())


def _of_grammar(
    file: str, code: str, severity: str, first: str, more: Tuple[str, ...], named: "dict[str, str]"
) -> Finding:
    if "fault" not in named:
        note = _first(_NOTE, more)
        added = next((f", {it}" for it in more if it.startswith("reached by")), "")
        if note and code in ("reversed", "never-taken"):
            added = f": {note[2]}"
        return Finding(file, int(note[1]) if note else None, None, severity, code, first + added, "grammar", more)
    message, column = named["fault"], None
    at = _first(_COLUMN, more)
    if at:
        column, message = int(at[1]), f"{message}: {at[2]}"
    else:
        message += "".join(f" {it}" for it in more if it.startswith("at the end of the text"))
    return Finding(file, int(named["line"]), column, severity, code, message, "grammar", more)


def _of_input(code: str, more: Tuple[str, ...], named: "dict[str, Optional[str]]") -> Finding:
    line, column = named.get("line"), named.get("letter")
    message, at = named["fault"] or "", _first(_BYTE, more)
    if at:
        line, column = at[1], at[2]
    expected = [it[9:] for it in more if it.startswith("expected ")]
    if code == "no-match" and expected:
        message += ": expected " + " or ".join(expected)
    return Finding(
        "", int(line) if line else None, int(column) if column else None, "error", code, message, "input", more
    )
