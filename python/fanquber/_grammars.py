"""Grammars that are asked more than once."""
import contextlib
import functools
import itertools
import os
import threading
from typing import Any, Callable, Dict, Iterable, Iterator, List, NamedTuple, Optional, Sequence, Tuple, TypeVar, Union

from . import _programs
from ._library import (
    DEFAULT_LIMIT,
    DEFAULT_SEED,
    MAX_LIMIT,
    MAX_NUMBER,
    MAX_SEED,
    AbnfJudge,
    Costly,
    GrammarError,
    Letters,
    Listed,
    ListedLines,
    Mode,
    OutOfMemory,
    Overlong,
    PegRunner,
    Reply,
    Status,
    Text,
    abnf,
    as_bytes,
    peg,
)
from ._programs import ProgramFailed
from .comparisons import Comparison, read_comparison
from .findings import Finding, read_findings
from .names import first_rule
from .refusals import Refusal, read_refusal
from .trees import Tree, read_rules

Path = Union[str, "os.PathLike[str]"]
Own = TypeVar("Own", bound="_PerThread")
MANY = 10000
"""From how many lines on a whole run is faster than a call for each line."""
DEFAULT_BUDGET = 1000000
DEFAULT_LENGTH = 256
DEFAULT_COUNT = 1000


def _lines(text: bytes) -> List[str]:
    """Returns the lines of an error output."""
    return text.decode("utf-8", "backslashreplace").splitlines()


def _raise_fault(reply: Reply, findings: Callable[[], List[Finding]]) -> None:
    """Raises what a status stands for that is no answer. The function returns the findings on the grammar."""
    if reply.status == Status.REFUSED:
        raise GrammarError([it for it in _lines(reply.err) if not it.startswith("  ")], findings())
    if reply.status == Status.OVERLONG:
        message = _lines(reply.err)[-1]
        raise (Costly if " more than " in message else Overlong)(message, reply.out)
    if reply.status >= Status.FAULT:
        raise OutOfMemory("out of memory")


def _contents(path: Path) -> bytes:
    with open(path, "rb") as file:
        return file.read()


def check(
    kind: str,
    text: Text,
    rule: Optional[str] = None,
    *,
    letters: Letters = Letters.BYTES,
    nul: bool = False,
    file: str = "",
) -> List[Finding]:
    """Returns the findings on a grammar of a kind, `abnf` or `peg`, whether it is rejected or not. `nul` says that the
    lines to be judged may hold line feeds. `file` is the grammar's name in findings. `OutOfMemory` if an allocation
    fails."""
    if kind == "peg":
        reply, judged = peg(text, mode=Mode.CHECK, start=rule, explain=True), ""
    else:
        reply = abnf(text, mode=Mode.CHECK, rule=rule, letters=letters, nul=nul, explain=True)
        judged = first_rule("abnf", as_bytes(text)) if rule is None else rule
    if reply.status >= Status.FAULT:
        raise OutOfMemory("out of memory")
    return read_findings(reply.err, file, judged)


def canonical_text(kind: str, text: Text, file: str = "") -> bytes:
    """Returns the canonical text of a grammar of a kind. It may have names without a rule. `GrammarError` if it cannot
    be read or defines a rule twice, `OutOfMemory` if an allocation fails."""
    reply = peg(text, mode=Mode.PRINT) if kind == "peg" else abnf(text, mode=Mode.PRINT)
    _raise_fault(reply, lambda: check(kind, text, file=file))
    return reply.out


class _PerThread:
    """A grammar that each thread which asks opens for itself. Use it in a `with`, or call `close`, where what a thread
    holds is to be freed before the object goes."""

    def __init__(self) -> None:
        self._own, self._closed = threading.local(), False

    def _opened(self, name: str, opens: Callable[[], Any]) -> Any:
        """Returns what the calling thread opened under a name, or opens it. `ValueError` if the grammar is closed."""
        if self._closed:
            raise ValueError("the grammar is closed")
        it = getattr(self._own, name, None)
        if it is None:
            it = opens()
            _raise_fault(it.opening, self._explained)
            setattr(self._own, name, it)
        return it

    def _explained(self) -> List[Finding]:
        raise NotImplementedError

    def close(self) -> None:
        """Frees what the calling thread holds. Each later call that judges or runs raises `ValueError`. What another
        thread holds is freed when that thread ends. A second call does nothing."""
        self._closed = True
        for it in vars(self._own).values():
            it.close()
        vars(self._own).clear()

    def __enter__(self: Own) -> Own:
        return self

    def __exit__(self, *_: object) -> None:
        self.close()

    def __getstate__(self) -> Dict[str, Any]:
        return {name: it for name, it in self.__dict__.items() if name != "_own"}

    def __setstate__(self, state: Dict[str, Any]) -> None:
        self.__dict__.update(state, _own=threading.local())


class Abnf(_PerThread):
    """A grammar in ABNF (RFC 5234, RFC 7405), with the rule that judges lines: the first, if none is named.

    A line is bytes, or a `str`, which stands for its bytes in UTF-8. Its letters are its bytes, or its code points
    with `Letters.UTF8`. It may hold any byte, and has at most `limit` bytes. `GrammarError` if the grammar is
    rejected, `OutOfMemory` if an allocation fails; each call that judges lines raises `Overlong` for a line above the
    limit, and `Costly` for one whose sets need more than `budget` items.

    Each thread reads the grammar once, and again for `viable` and `refusal`. `file` is the name of the grammar in
    findings.
    """

    def __init__(
        self,
        text: Text,
        rule: Optional[str] = None,
        *,
        letters: Letters = Letters.BYTES,
        limit: int = DEFAULT_LIMIT,
        budget: Optional[int] = None,
        file: str = "",
    ) -> None:
        super().__init__()
        self._text, self._file = as_bytes(text), file
        self._rule, self._letters, self._limit, self._budget = rule, letters, limit, budget
        self.notes: List[str] = _lines(self._judge().opening.err)
        """The notes on the grammar, none of which rejects it."""

    @classmethod
    def from_file(
        cls,
        path: Path,
        rule: Optional[str] = None,
        *,
        letters: Letters = Letters.BYTES,
        limit: int = DEFAULT_LIMIT,
        budget: Optional[int] = None,
    ) -> "Abnf":
        """Returns the grammar of a file, whose name its findings bear. `OSError` if the file cannot be read; else
        raises what `Abnf` raises."""
        return cls(_contents(path), rule, letters=letters, limit=limit, budget=budget, file=os.fspath(path))

    def _explained(self) -> List[Finding]:
        # A line may hold any byte here, so none is out of reach
        found = check("abnf", self._text, self._rule, letters=self._letters, nul=True, file=self._file)
        return [it for it in found if it.code != "no-line"]

    @functools.cached_property
    def findings(self) -> List[Finding]:
        """The notes and hints on the grammar with their places, as `abnfi -m check -x` gives them, but for the hint
        that no line is derived: a line here may hold any byte."""
        return self._explained()

    @functools.cached_property
    def rules(self) -> Dict[str, Tree]:
        """The rules as trees (`fanquber.trees`), by name and in order; core rules only if the grammar has them. Names
        are spelled as where they are defined first."""
        return read_rules("abnf", self.canonical())

    def _judge(self, viable: bool = False) -> AbnfJudge:
        """Returns what judges lines on this thread: it is opened when it is first asked for."""
        judge: AbnfJudge = self._opened(
            "viable" if viable else "plain",
            lambda: AbnfJudge(
                self._text,
                limit=self._limit,
                rule=self._rule,
                letters=self._letters,
                viable=viable,
                budget=self._budget,
            ),
        )
        return judge

    def judge(self, lines: Iterable[Text]) -> List[bool]:
        """Returns for each line whether the rule derives it. Many lines are judged by a whole run, which reads the
        grammar once more and takes a tenth of the time, unless a line has a line feed."""
        judge, texts = self._judge(), list(map(as_bytes, lines))
        joined = b"\n".join([*texts, b""]) if len(texts) >= MANY else b""
        if not texts or joined.count(b"\n") != len(texts):
            return judge.derived(texts)
        return list(map(bool, self.answers(joined)))

    def answers(self, text: bytes) -> bytes:
        """Returns a byte for each line of a text: 1 if the rule derives it, else 0. Lines end at line feeds alone. It
        is a whole run, which reads the grammar."""
        reply = abnf(self._text, text, limit=self._limit, rule=self._rule, letters=self._letters, budget=self._budget)
        _raise_fault(reply, self._explained)
        return reply.out.replace(b"yes\n", b"\1").replace(b"no\n", b"\0")

    def derives(self, line: Text) -> bool:
        """Returns whether the rule derives a line."""
        return self.judge([line])[0]

    def first_refused(self, lines: Iterable[Text]) -> Optional[int]:
        """Returns the index of the first line that the rule does not derive; None if it derives all."""
        answers = self.judge(lines)
        return answers.index(False) if False in answers else None

    def viable(self, line: Text) -> Optional[int]:
        """Returns None for a line that the rule derives. Of any other it returns how many letters the longest viable
        prefix has: they begin something that the rule derives, and the letter after them cannot stand there."""
        answer = self._judge(viable=True).answer(as_bytes(line))
        return None if answer.derived else answer.reached

    def refusal(self, line: Text) -> Optional[Refusal]:
        """Returns None for a line that the rule derives, else why it does not. It makes a whole run, so the grammar is
        read anew."""
        data = as_bytes(line)
        at = self.viable(data)
        if at is None:
            return None
        nul = b"\n" in data
        if nul and b"\0" in data:
            return Refusal(at, (), False, "")
        reply = abnf(
            self._text,
            data + (b"\0" if nul else b"\n"),
            limit=self._limit,
            rule=self._rule,
            letters=self._letters,
            nul=nul,
            explain=True,
            budget=self._budget,
        )
        _raise_fault(reply, self._explained)
        return read_refusal(at, reply.err)

    def canonical(self) -> bytes:
        """Returns the text of the grammar in its canonical form."""
        return canonical_text("abnf", self._text, self._file)

    def lines(
        self,
        *,
        limit: int = DEFAULT_LENGTH,
        count: int = DEFAULT_COUNT,
        which: Listed = Listed.DERIVED,
        seed: int = DEFAULT_SEED,
    ) -> Iterator[bytes]:
        """Returns an iterator over the first lines that the rule derives, as abnfg(1) lists them: shorter ones first,
        each once. None is left out but those that hold a NUL byte. They have at most `limit` letters each, and are at
        most `count`.

        `Listed.MISSED` asks for near lines that the rule does not derive, `Listed.EDGES` for these with wrong letters
        next to those that can follow. `Listed.RANDOM` draws derived lines by `seed`, and they may come again.
        `Listed.SAMPLES` asks for the derived lines that have only the first of letters that no set distinguishes,
        `Listed.COVER` for derived lines that reach each alternative and each bound; longer ones come first.

        The grammar is opened for the first line. `ValueError` if `limit` is not from 1 to 16777216, `count` not from 1
        to 4294967295, or `seed` not from 0 to 18446744073709551615. The iterator raises `GrammarError` if the grammar
        is rejected, `TooManyStacks` after the last line that is found if more may follow, `OutOfMemory` if an
        allocation fails, and `RuntimeError` on another thread than that which asked for the first line.
        """
        _in_range("limit", limit, MAX_LIMIT)
        _in_range("count", count, MAX_NUMBER)
        _in_range("seed", seed, MAX_SEED, 0)
        return itertools.islice(self._listed(limit, Listed(which), seed), count)

    def _listed(self, limit: int, which: Listed, seed: int) -> Iterator[bytes]:
        opened = ListedLines(self._text, which, limit=limit, rule=self._rule, letters=self._letters, seed=seed)
        with contextlib.closing(opened) as lines:
            _raise_fault(lines.opening, self._explained)
            while (line := lines.next()) is not None:
                yield line

    def compare(self, new: "Abnf", *, budget: int = DEFAULT_BUDGET) -> Comparison:
        """Returns which lines this rule derives and that of `new` does not, and the reverse, as the function `compare`
        does. `ValueError` if the letters of only one of them are bytes; else raises what `compare` raises."""
        if self._letters != new._letters:
            raise ValueError("the letters of one grammar are bytes, those of the other are not")
        rules = [first_rule("abnf", it._text) if it._rule is None else it._rule for it in (self, new)]
        names = [self._file or "old", new._file or "new"]
        return _compared([self._text, new._text], rules, names, self._letters, budget)


def _in_range(name: str, number: int, most: int, least: int = 1) -> None:
    if not least <= number <= most:
        raise ValueError(f"{name} {number}: it is from {least} to {most}")


def _options(letters: Letters, rules: Iterable[Tuple[str, Optional[str]]]) -> List[Text]:
    """Returns the words of options: the letters, and the rules that have a name."""
    words: List[Text] = ["--letters=utf8"] if letters == Letters.UTF8 else []
    return words + [f"{option}={name}" for option, name in rules if name is not None]


def compare(
    old: Text,
    new: Text,
    *,
    rule: Optional[str] = None,
    new_rule: Optional[str] = None,
    letters: Letters = Letters.BYTES,
    budget: int = DEFAULT_BUDGET,
) -> Comparison:
    """Returns which lines a rule of one grammar in ABNF derives and that of another does not, and the reverse, as
    abnfd(1) finds them.

    `rule` is the rule of both, the first of each if it is None; `new_rule` is that of `new` where it has another name.
    Lines have any length, and may hold any byte. For each of both answers the search looks at no more than `budget`
    pairs of states, so an answer may be not known.

    `GrammarError` if one of them is rejected: its notes have `old:` or `new:` before them, and the files of its
    findings are `old` and `new`. `ValueError` if `budget` is not from 1 to 4294967295, `ProgramMissing` if abnfd is not
    installed, `OutOfMemory` if an allocation fails; and `ProgramFailed`.
    """
    return _compared([as_bytes(old), as_bytes(new)], [rule, new_rule], ["old", "new"], letters, budget)


def _compared(
    texts: Sequence[bytes], rules: Sequence[Optional[str]], names: Sequence[str], letters: Letters, budget: int
) -> Comparison:
    """Returns the comparison of the texts of two grammars. A new rule that is None is that of the old grammar."""
    _in_range("budget", budget, MAX_NUMBER)
    named = zip(("--rule", "--new-rule"), rules)
    words: List[Text] = [_programs.program_path("abnfd"), f"--budget={budget}", *_options(letters, named)]
    reply = _programs.run(words, texts)

    def explained() -> List[Finding]:
        judged = [rules[0], rules[0] if rules[1] is None else rules[1]]
        each = zip(texts, judged, names)
        # A line may hold any byte here, so none is out of reach
        found = (check("abnf", text, rule, letters=letters, nul=True, file=name) for text, rule, name in each)
        return [it for part in found for it in part if it.code != "no-line"]

    notes = tuple(_lines(reply.err))
    if reply.status == Status.REFUSED:
        raise GrammarError(list(notes), explained())
    found = read_comparison(reply.out, notes)
    if found is None:
        raise ProgramFailed("abnfd writes an answer that this package does not know")
    return found


class PegRun(NamedTuple):
    """What a run printed, whether all of the input was taken, and the message that says where it stopped, if not."""

    out: bytes
    is_whole: bool
    message: str


def _peg_run(reply: Reply) -> PegRun:
    """Returns what a run came to, or raises what it stands for."""
    _raise_fault(reply, list)
    is_whole = reply.status == Status.DONE
    return PegRun(reply.out, is_whole, "" if is_whole else _lines(reply.err)[-1])


class Peg(_PerThread):
    """A grammar in the syntax of peg(1), with its start rule: the first, if none is named.

    A unit of an input looks at no more than `limit` bytes, and prints no more than `budget` bytes. `GrammarError` if
    the grammar is rejected, `OutOfMemory` if an allocation fails. Each thread reads the grammar once. `file` is the
    name of the grammar in findings.
    """

    def __init__(
        self,
        text: Text,
        start: Optional[str] = None,
        *,
        raw: bool = False,
        limit: int = DEFAULT_LIMIT,
        budget: Optional[int] = None,
        file: str = "",
    ) -> None:
        super().__init__()
        self._text, self._file = as_bytes(text), file
        self._start, self._raw, self._limit, self._budget = start, raw, limit, budget
        self.notes: List[str] = _lines(self._runner().opening.err)
        """The notes on the grammar, none of which rejects it."""

    @classmethod
    def from_file(
        cls,
        path: Path,
        start: Optional[str] = None,
        *,
        raw: bool = False,
        limit: int = DEFAULT_LIMIT,
        budget: Optional[int] = None,
    ) -> "Peg":
        """Returns the grammar of a file, whose name its findings bear. `OSError` if the file cannot be read; else
        raises what `Peg` raises."""
        return cls(_contents(path), start, raw=raw, limit=limit, budget=budget, file=os.fspath(path))

    def _explained(self) -> List[Finding]:
        return check("peg", self._text, self._start, file=self._file)

    @functools.cached_property
    def findings(self) -> List[Finding]:
        """The notes and hints on the grammar with their places, as `pegi -m check -x` gives them."""
        return self._explained()

    @functools.cached_property
    def rules(self) -> Dict[str, Tree]:
        """The rules as trees (`fanquber.trees`), by name and in order."""
        return read_rules("peg", self.canonical())

    def _runner(self) -> PegRunner:
        """Returns what runs the grammar on this thread: it is opened when it is first asked for."""
        runner: PegRunner = self._opened(
            "runner",
            lambda: PegRunner(
                self._text, limit=self._limit, start=self._start, raw=self._raw, budget=self._budget
            ),
        )
        return runner

    def run(self, data: Text) -> PegRun:
        """Returns what the actions print on an input, unit after unit. `Overlong` if a unit looks at more bytes than
        the limit, `Costly` if it prints more bytes than the budget."""
        return _peg_run(self._runner().run(as_bytes(data)))

    def run_each(self, texts: Iterable[Text]) -> List[PegRun]:
        """Returns the same for each of some inputs."""
        runner = self._runner()
        return [_peg_run(runner.run(text)) for text in map(as_bytes, texts)]

    def canonical(self) -> bytes:
        """Returns the text of the grammar in its canonical form."""
        return canonical_text("peg", self._text, self._file)
