"""The calls of libfanquber: whole runs, and grammars that are opened once."""
import ctypes
import enum
import os
import threading
from typing import Any, Dict, Iterable, List, NamedTuple, Optional, Sequence, Tuple, Union

from .findings import Finding

Text = Union[bytes, str]

DEFAULT_LIMIT = 65536
MAX_LIMIT = 16777216
DEFAULT_SEED = 1
MAX_SEED = 18446744073709551615
MAX_NUMBER = 4294967295
"""The greatest count of lines, and the greatest budget."""
_SONAME = "libfanquber.so.2"
_BAD_SETTINGS = 6
_COSTLY = 7


class Mode(enum.IntEnum):
    """What to do with the grammar."""

    RUN = 0
    CHECK = 1
    PRINT = 2


class Letters(enum.IntEnum):
    """What the lines of `abnf` are made of."""

    BYTES = 0
    UTF8 = 1


class Status(enum.IntEnum):
    """What a run came to: the exit status of the program."""

    DONE = 0
    NO_MATCH = 1
    REFUSED = 2
    OVERLONG = 3
    FAULT = 4
    NO_MEMORY = 5


class Listed(enum.IntEnum):
    """Which lines of a rule are listed."""

    DERIVED = 0
    MISSED = 1
    EDGES = 2
    RANDOM = 3
    SAMPLES = 4
    COVER = 5


class Reply(NamedTuple):
    """What a run wrote on both outputs, and its status."""

    out: bytes
    err: bytes
    status: Status


class FanquberError(Exception):
    """What the exceptions of this package are."""


class GrammarError(FanquberError):
    """The grammar is rejected. `notes` has the lines that say why, and `findings` the same with places."""

    def __init__(self, notes: List[str], findings: Sequence[Finding] = ()) -> None:
        super().__init__("; ".join(notes))
        self.notes, self.findings = notes, list(findings)

    def __reduce__(self) -> Tuple[Any, ...]:
        return GrammarError, (self.notes, self.findings)


class Overlong(FanquberError):
    """A line or a unit is longer than the limit. `out` has what was written before it."""

    def __init__(self, message: str, out: bytes) -> None:
        super().__init__(message)
        self.out = out

    def __reduce__(self) -> Tuple[Any, ...]:
        return Overlong, (str(self), self.out)


class Costly(FanquberError):
    """A line needs more items than the budget, or a unit prints more bytes. `out` has what was written before it."""

    def __init__(self, message: str, out: bytes) -> None:
        super().__init__(message)
        self.out = out

    def __reduce__(self) -> Tuple[Any, ...]:
        return Costly, (str(self), self.out)


class OutOfMemory(FanquberError, MemoryError):
    """An allocation failed."""


class TooManyStacks(FanquberError):
    """The rule nests, counts how often something is repeated that may be empty, or begins with itself. The lines that
    came before are right, and more may follow."""


class _Settings(ctypes.Structure):
    _fields_ = [
        ("size", ctypes.c_size_t),
        ("limit", ctypes.c_size_t),
        ("mode", ctypes.c_uint8),
        ("letters", ctypes.c_uint8),
        ("named", ctypes.c_bool),
        ("raw", ctypes.c_bool),
        ("viable", ctypes.c_bool),
        ("nul", ctypes.c_bool),
        ("explain", ctypes.c_bool),
        ("budget", ctypes.c_size_t),
        ("seed", ctypes.c_uint64),
    ]


class _Result(ctypes.Structure):
    _fields_ = [("out_len", ctypes.c_size_t), ("err_len", ctypes.c_size_t), ("status", ctypes.c_uint8)]


class _Window(ctypes.Structure):
    _fields_ = [("at", ctypes.c_size_t), ("len", ctypes.c_size_t)]


class _Place(ctypes.Structure):
    """A judge, a runner or lines of C."""

    _fields_ = [("at", ctypes.c_void_p), ("is_open", ctypes.c_bool)]


class _Answer(ctypes.Structure):
    _fields_ = [("reached", ctypes.c_size_t), ("status", ctypes.c_uint8)]


class _Line(ctypes.Structure):
    _fields_ = [("len", ctypes.c_size_t), ("status", ctypes.c_uint8)]


def library_path() -> str:
    """Returns the shared object: the file that FANQUBER_LIBRARY names, or else the one in the package's folder, where
    a wheel has it, or else the name by which the system finds it."""
    beside = os.path.join(os.path.dirname(os.path.abspath(__file__)), _SONAME)
    return os.environ.get("FANQUBER_LIBRARY") or (beside if os.path.isfile(beside) else _SONAME)


def loaded_path() -> str:
    """Returns the file of the shared object that this process has loaded, for a process without its environment."""
    with open("/proc/self/maps") as maps:
        loaded = (it.rstrip("\n").split(None, 5)[-1] for it in maps)
        return next((it for it in loaded if it.endswith(f"/{_SONAME}")), library_path())


def _loaded() -> ctypes.CDLL:
    """Returns the shared object with the types of its calls."""
    try:
        library = ctypes.CDLL(library_path())
    except OSError as fault:
        raise OSError(f"{fault}: `make lib` makes it in bin/; FANQUBER_LIBRARY names its file") from None
    settings: List[Any] = [ctypes.POINTER(_Settings)]
    text: List[Any] = [ctypes.c_char_p, ctypes.c_size_t]
    windows = [ctypes.POINTER(_Window), ctypes.c_size_t, ctypes.POINTER(_Result), ctypes.c_size_t]
    library.fanquber_peg.argtypes = library.fanquber_abnf.argtypes = settings + text * 5
    library.fanquber_peg_windows.argtypes = settings + text * 3 + windows + text * 2
    place = [ctypes.POINTER(_Place)]
    library.fanquber_abnf_open.argtypes = library.fanquber_peg_open.argtypes = settings + text * 2 + place + text
    library.fanquber_abnf_judge.argtypes, library.fanquber_abnf_judge.restype = place + text, _Answer
    library.fanquber_peg_run.argtypes = place + text * 3
    which: List[Any] = [ctypes.c_uint8]
    library.fanquber_lines_open.argtypes = settings + which + text * 2 + place + text
    library.fanquber_lines_next.argtypes, library.fanquber_lines_next.restype = place + text, _Line
    for call in ("fanquber_abnf_close", "fanquber_peg_close", "fanquber_lines_close"):
        getattr(library, call).argtypes, getattr(library, call).restype = place, None
    for call in (
        "fanquber_peg",
        "fanquber_abnf",
        "fanquber_peg_windows",
        "fanquber_abnf_open",
        "fanquber_peg_open",
        "fanquber_peg_run",
        "fanquber_lines_open",
    ):
        getattr(library, call).restype = _Result
    return library


_library = _loaded()


def as_bytes(text: Text) -> bytes:
    """Returns a text as bytes: what is a `str` in UTF-8."""
    return text.encode() if isinstance(text, str) else bytes(text)


def _status(got: _Result) -> Status:
    """Returns the status of a call that takes settings. `ValueError` where the library rejects them."""
    if got.status == _BAD_SETTINGS:
        raise ValueError("settings out of range, or a library that is older than this package")
    return Status(got.status)


def _run(
    call: Any, settings: _Settings, grammar: Text, start: Optional[str], data: Text, room: int, more: Sequence[Any] = ()
) -> Reply:
    """Returns what a run writes. It calls again with more room where the first buffers were too small."""
    texts = [as_bytes(grammar), as_bytes(start or ""), as_bytes(data)]
    words = [word for text in texts for word in (text, len(text))]
    out_size, err_size = room, 4096
    while True:
        out, err = ctypes.create_string_buffer(out_size), ctypes.create_string_buffer(err_size)
        got = call(ctypes.byref(settings), *words, *more, out, out_size, err, err_size)
        status = _status(got)
        if got.out_len <= out_size and got.err_len <= err_size:
            return Reply(out.raw[: got.out_len], err.raw[: got.err_len], status)
        out_size, err_size = max(out_size, got.out_len), max(err_size, got.err_len)


def _settings(
    limit: int,
    mode: Mode,
    start: Optional[str],
    budget: Optional[int] = None,
    seed: int = DEFAULT_SEED,
    **others: Any,
) -> _Settings:
    # A number that C cannot hold would be cut
    if not 1 <= limit <= MAX_LIMIT:
        raise ValueError(f"limit {limit}: it is from 1 to {MAX_LIMIT}")
    if budget is not None and not 1 <= budget <= MAX_NUMBER:
        raise ValueError(f"budget {budget}: it is from 1 to {MAX_NUMBER}")
    if not 0 <= seed <= MAX_SEED:
        raise ValueError(f"seed {seed}: it is from 0 to {MAX_SEED}")
    size, named = ctypes.sizeof(_Settings), start is not None
    return _Settings(size=size, limit=limit, mode=mode, named=named, budget=budget or 0, seed=seed, **others)


def peg(
    grammar: Text,
    data: Text = b"",
    *,
    mode: Mode = Mode.RUN,
    limit: int = DEFAULT_LIMIT,
    start: Optional[str] = None,
    raw: bool = False,
    explain: bool = False,
    budget: Optional[int] = None,
) -> Reply:
    """Returns what pegi(1) writes for a grammar and an input. A unit prints at most `budget` bytes."""
    settings = _settings(limit, mode, start, budget, raw=raw, explain=explain)
    return _run(_library.fanquber_peg, settings, grammar, start, data, 65536)


def peg_each(
    grammar: Text,
    texts: Sequence[Text],
    *,
    limit: int = DEFAULT_LIMIT,
    start: Optional[str] = None,
    raw: bool = False,
    explain: bool = False,
    budget: Optional[int] = None,
) -> List[Reply]:
    """Returns for each text what pegi(1) writes for it, as `peg` does. The grammar is read and checked once."""
    parts = [as_bytes(text) for text in texts]
    windows, results = (_Window * len(parts))(), (_Result * len(parts))()
    at = 0
    for window, part in zip(windows, parts):
        window.at, window.len = at, len(part)
        at += len(part)
    settings = _settings(limit, Mode.RUN, start, budget, raw=raw, explain=explain)
    more = (windows, len(parts), results, len(parts))
    out, err, _ = _run(_library.fanquber_peg_windows, settings, grammar, start, b"".join(parts), 65536, more)
    # The messages on the grammar stand once, before those of the runs
    replies, out_at, err_at = [], 0, len(err) - sum(it.err_len for it in results)
    of_grammar = err[:err_at]
    for it in results:
        out_end, err_end = out_at + it.out_len, err_at + it.err_len
        replies.append(Reply(out[out_at:out_end], of_grammar + err[err_at:err_end], Status(it.status)))
        out_at, err_at = out_end, err_end
    return replies


def abnf(
    grammar: Text,
    data: Text = b"",
    *,
    mode: Mode = Mode.RUN,
    limit: int = DEFAULT_LIMIT,
    rule: Optional[str] = None,
    letters: Letters = Letters.BYTES,
    viable: bool = False,
    nul: bool = False,
    explain: bool = False,
    budget: Optional[int] = None,
) -> Reply:
    """Returns what abnfi(1) writes for a grammar and the lines of an input. The sets of a line have at most `budget`
    items."""
    settings = _settings(limit, mode, rule, budget, letters=letters, viable=viable, nul=nul, explain=explain)
    text = as_bytes(data)
    # An answer is `yes`, or `no` with a number of at most eight digits
    room = (12 if viable else 4) * (text.count(b"\0" if nul else b"\n") + 1)
    return _run(_library.fanquber_abnf, settings, grammar, rule, text, max(room, 65536))


class Answer(NamedTuple):
    """The answer to a line: whether it is derived, and if not, how many letters its longest viable prefix has, if that
    is asked for."""

    derived: bool
    reached: int


# What was let go on another thread than its own, by that thread, each with what closes it: the thread closes them when
# it opens the next.
_left: Dict[int, List[Tuple[Any, _Place]]] = {}


class _Opened:
    """A grammar that the library read once, for the thread that opens it."""

    def __init__(self, opens: Any, closes: Any, settings: _Settings, grammar: Text, start: Optional[str]) -> None:
        self._closes, self._place, self._thread = closes, _Place(), threading.get_ident()
        for close, place in _left.pop(self._thread, []):
            close(ctypes.byref(place))
        texts = [as_bytes(grammar), as_bytes(start or "")]
        words = [word for text in texts for word in (text, len(text))]
        room = 4096
        while True:
            err = ctypes.create_string_buffer(room)
            got = opens(ctypes.byref(settings), *words, ctypes.byref(self._place), err, room)
            if got.err_len <= room:
                break
            closes(ctypes.byref(self._place))
            room = got.err_len
        self.opening = Reply(b"", err.raw[: got.err_len], _status(got))
        """What a run that checks the grammar writes."""

    def close(self) -> None:
        """Frees what the grammar holds. On another thread than its own it leaves that to this thread, which does it
        when it opens the next grammar."""
        place = self.__dict__.pop("_place", None)
        if place is None:
            return  # closed, or the settings were rejected
        if threading.get_ident() == self._thread:
            self._closes(ctypes.byref(place))
        else:
            _left.setdefault(self._thread, []).append((self._closes, place))

    def __del__(self) -> None:
        self.close()


class AbnfJudge(_Opened):
    """A grammar in ABNF that is opened."""

    def __init__(
        self,
        grammar: Text,
        *,
        limit: int,
        rule: Optional[str],
        letters: Letters,
        viable: bool = False,
        budget: Optional[int] = None,
    ) -> None:
        settings = _settings(limit, Mode.RUN, rule, budget, letters=letters, viable=viable)
        super().__init__(_library.fanquber_abnf_open, _library.fanquber_abnf_close, settings, grammar, rule)
        self._limit, self._budget = limit, budget

    def answer(self, line: bytes) -> Answer:
        """Returns the answer to a line. `Overlong` if it is longer than the limit, `Costly` if it needs more than the
        budget."""
        got = _library.fanquber_abnf_judge(ctypes.byref(self._place), line, len(line))
        self._check([got.status])
        return Answer(got.status == Status.DONE, got.reached)

    def derived(self, lines: Iterable[bytes]) -> List[bool]:
        """Returns for each line whether the rule derives it. `Overlong` if one is longer than the limit, `Costly` if
        one needs more than the budget."""
        call, place = _library.fanquber_abnf_judge, ctypes.byref(self._place)
        statuses = [call(place, line, len(line)).status for line in lines]
        self._check(statuses)
        return [not status for status in statuses]

    def _check(self, statuses: List[int]) -> None:
        """Raises what the first status stands for that is no answer."""
        if max(statuses, default=0) <= Status.NO_MATCH:
            return
        at = next(index for index, status in enumerate(statuses) if status > Status.NO_MATCH)
        out = b"".join(b"no\n" if status else b"yes\n" for status in statuses[:at])
        if statuses[at] == _COSTLY:
            raise Costly(f"line {at + 1} needs more than {self._budget} items", out)
        if statuses[at] != Status.OVERLONG:
            raise OutOfMemory("out of memory")
        raise Overlong(f"line {at + 1} longer than {self._limit} bytes", out)


class PegRunner(_Opened):
    """A grammar of peg(1) that is opened. It keeps buffers of the size that its runs needed."""

    def __init__(
        self, grammar: Text, *, limit: int, start: Optional[str], raw: bool, budget: Optional[int] = None
    ) -> None:
        settings = _settings(limit, Mode.RUN, start, budget, raw=raw)
        super().__init__(_library.fanquber_peg_open, _library.fanquber_peg_close, settings, grammar, start)
        self._out, self._err = ctypes.create_string_buffer(4096), ctypes.create_string_buffer(256)

    def run(self, data: bytes) -> Reply:
        """Returns what a run writes on an input, without the notes."""
        while True:
            out, err = self._out, self._err
            got = _library.fanquber_peg_run(ctypes.byref(self._place), data, len(data), out, len(out), err, len(err))
            if got.out_len <= len(out) and got.err_len <= len(err):
                return Reply(out.raw[: got.out_len], err.raw[: got.err_len], Status(got.status))
            self._out = ctypes.create_string_buffer(max(len(out), got.out_len))
            self._err = ctypes.create_string_buffer(max(len(err), got.err_len))


class ListedLines(_Opened):
    """Lines of a rule in ABNF, one after another. None holds a NUL byte."""

    def __init__(
        self, grammar: Text, which: Listed, *, limit: int, rule: Optional[str], letters: Letters, seed: int
    ) -> None:
        def opens(settings: Any, *others: Any) -> _Result:
            result: _Result = _library.fanquber_lines_open(settings, which, *others)
            return result

        settings = _settings(limit, Mode.RUN, rule, seed=seed, letters=letters, nul=True)
        super().__init__(opens, _library.fanquber_lines_close, settings, grammar, rule)
        # A line of so many letters fits
        self._line = ctypes.create_string_buffer(limit * (4 if letters == Letters.UTF8 else 1))

    def next(self) -> Optional[bytes]:
        """Returns the next line, or None if there is none. `TooManyStacks` if more may follow, `OutOfMemory` if an
        allocation fails, `RuntimeError` on another thread than that which opened the lines."""
        if threading.get_ident() != self._thread:
            raise RuntimeError("the lines were opened on another thread")
        got = _library.fanquber_lines_next(ctypes.byref(self._place), self._line, len(self._line))
        if got.status == Status.OVERLONG:
            raise TooManyStacks("too many stacks")
        if got.status > Status.NO_MATCH:
            raise OutOfMemory("out of memory")
        return None if got.status == Status.NO_MATCH else ctypes.string_at(self._line, got.len)
