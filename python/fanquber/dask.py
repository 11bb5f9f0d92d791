"""Lines of files judged by the workers of a Dask cluster.

    from distributed import Client
    from fanquber import Abnf
    from fanquber.dask import judge_files

    client = Client("scheduler:8786")
    stamp = Abnf.from_file("rfc3339.abnf", "date-time")
    derived, refused = judge_files(stamp, "lines-*.txt", client)
    print(derived.count().compute(), "lines are timestamps")
    for it in refused.take(10, npartitions=-1):
        print(f"{it.file}:{it.number}: {stamp.refusal(it.text)}")

The client and the workers need this package, the shared object, and the files under the same names. It needs Dask:
`pip install fanquber[dask]`, or python3-distributed of Debian.
"""
import functools
import itertools
import os
import pickle
from typing import Any, Iterator, List, NamedTuple, Sequence, Tuple, Union

try:
    from dask import delayed
    from dask.bag import Bag, from_delayed
    from distributed import Client
    from fsspec.core import get_fs_token_paths
    from fsspec.utils import read_block
except ImportError as fault:
    raise ImportError("fanquber.dask needs distributed (Debian: python3-distributed)") from fault

from ._grammars import MANY, Abnf, Path
from ._library import Overlong

_SWAPPED = bytes.maketrans(b"\0\1", b"\1\0")


class Line(NamedTuple):
    """A line of a file."""

    file: str
    """The path of the file, as its file system has it."""
    number: int
    """The number of the line in this file, from 1."""
    text: bytes
    """The bytes of the line, without the line feed that ends it."""


class _Block(NamedTuple):
    """The lines of a file of which the first begins after the first line feed from the byte `at` on, and the last has
    the first line feed from the byte `at + size` on. At byte 0 a line begins too. `fs` is a file system of fsspec."""

    fs: Any
    file: str
    at: int
    size: int

    def text(self) -> bytes:
        """Returns the bytes of the lines. `OSError` if the file cannot be read."""
        with self.fs.open(self.file, "rb") as file:
            text: bytes = read_block(file, self.at, self.size, b"\n")
        return text


def judge_files(
    grammar: Abnf, files: Union[Path, Sequence[Path]], client: Client, *, block: int = 16 << 20
) -> Tuple[Bag, Bag]:
    """Returns two bags of `Line`: the lines that the rule of a grammar derives, and all others.

    `files` is a path, or a pattern with `*`, which stands for all files that match, in the order of their names; or it
    is a list of such, in the order of the list. A path may begin with the name of a file system that fsspec knows, as
    `hdfs://`. Lines end at line feeds alone, so a carriage return belongs to its line. The last line needs no line
    feed. Both bags have the order of the files, and of the lines in each.

    The workers of the client begin to judge at once, a block of about `block` bytes at a time. Each worker opens the
    grammar once. A block of many lines is a whole run, as `Abnf.judge` makes it. The cluster keeps the answers, a byte
    a line, while one of the bags lives. A bag is lazy, and has a partition a block. Computing it, by the same client,
    reads the lines from the files again, so these must not change before. If a worker is lost, others do its work
    again.

    `ValueError` for an empty list, and `OSError` if no file matches or a file cannot be read. Computing a bag raises
    `OSError` for a file that cannot be read or has changed, `Overlong` for a line above the grammar's limit, and
    `OutOfMemory` if an allocation of the library fails.
    """
    blocks = [
        _Block(fs, path, at, block) for fs, path in _found(files) for at in range(0, max(fs.size(path), 1), block)
    ]
    if not blocks:
        raise ValueError("no files are given")
    pickled = delayed(pickle.dumps(grammar))
    answers = [delayed(_answers)(it, pickled) for it in blocks]
    firsts = delayed(_firsts)([it.at for it in blocks], list(map(delayed(len), answers)))
    *answers, firsts = client.persist([*answers, firsts])

    def bag(derived: bool) -> Bag:
        parts = enumerate(zip(blocks, answers))
        return from_delayed([delayed(_chosen)(it, said, firsts, index, derived) for index, (it, said) in parts])

    return bag(True), bag(False)


def _found(files: Union[Path, Sequence[Path]]) -> Iterator[Tuple[Any, str]]:
    """Yields each file with its file system. `FileNotFoundError` for a pattern that no file matches."""
    for pattern in [files] if isinstance(files, (str, os.PathLike)) else files:
        fs, _, paths = get_fs_token_paths(pattern, mode="rb")
        if not paths:
            raise FileNotFoundError(f"no file matches {os.fspath(pattern)}")
        yield from ((fs, path) for path in sorted(paths))


def _lines(text: bytes) -> List[bytes]:
    """Returns the lines of a text without their line feeds."""
    lines = text.split(b"\n")
    return lines if lines[-1] else lines[:-1]


@functools.lru_cache(maxsize=8)
def _opened(pickled: bytes) -> Abnf:
    """Returns a grammar, which a process makes once."""
    grammar: Abnf = pickle.loads(pickled)
    return grammar


def _answers(block: _Block, pickled: bytes) -> bytes:
    """Returns a byte for each line of a block: 1 if the rule derives it, else 0."""
    text, grammar = block.text(), _opened(pickled)
    try:
        return grammar.answers(text) if text.count(b"\n") >= MANY else bytes(grammar.judge(_lines(text)))
    except Overlong as fault:
        begin = _lines(text)[fault.out.count(b"\n")][:40]
        raise Overlong(f"{block.file}, from byte {block.at} on: {fault}: {begin!r}..", fault.out) from None


def _firsts(offsets: List[int], counts: List[int]) -> List[int]:
    """Returns the number that the first line of each block has in its file, by the offset of each block and how many
    lines it has."""
    firsts, number = [], 1
    for at, count in zip(offsets, counts):
        number = 1 if at == 0 else number
        firsts.append(number)
        number += count
    return firsts


def _chosen(block: _Block, answers: bytes, firsts: List[int], index: int, derived: bool) -> List[Line]:
    """Returns the lines of a block that have an answer. `index` is that of its first number."""
    lines = _lines(block.text())
    if len(lines) != len(answers):
        raise OSError(f"{block.file} has changed since it was judged")
    marks = answers if derived else answers.translate(_SWAPPED)
    numbers = itertools.compress(itertools.count(firsts[index]), marks)
    return list(map(Line, itertools.repeat(block.file), numbers, itertools.compress(lines, marks)))
