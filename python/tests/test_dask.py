"""Lines of files judged by a Dask cluster: three workers on loopback."""
import logging
import os
import pathlib
import signal
import time

import pytest

for module in ("distributed", "dask"):
    pytest.importorskip(module, reason=f"needs python3-{module}")

from distributed import Client, LocalCluster, futures_of, wait
from fsspec.implementations.local import LocalFileSystem

from fanquber import Abnf, Overlong, _library, abnf
from fanquber import dask as judged
from fanquber.dask import Line, judge_files

DAY = 'day = 4DIGIT "-" 2DIGIT "-" 2DIGIT\n'
# Contents of files, each with its lines.
TEXTS = [
    (b"", []),
    (b"\n", [b""]),
    (b"\n\n", [b"", b""]),
    (b"a", [b"a"]),
    (b"a\n", [b"a"]),
    (b"a\nb", [b"a", b"b"]),
    (b"\na\n\nbcd\n", [b"", b"a", b"", b"bcd"]),
    (b"a\r\nb\r\n", [b"a\r", b"b\r"]),
    (b"a\rb\x0bc\x0cd\x85e\n\xe2\x80\xa8\n", [b"a\rb\x0bc\x0cd\x85e", b"\xe2\x80\xa8"]),
    (b"a\n" + b"b" * 40 + b"\nc", [b"a", b"b" * 40, b"c"]),
]


@pytest.fixture(scope="module")
def client(tmp_path_factory):
    how = {"host": "127.0.0.1", "dashboard_address": None, "silence_logs": logging.CRITICAL}
    how["local_directory"] = str(tmp_path_factory.mktemp("workers"))
    with LocalCluster(n_workers=3, threads_per_worker=1, **how) as cluster, Client(cluster) as it:
        yield it


def written(folder, **texts):
    """Writes files, and returns the pattern that all match."""
    for name, text in texts.items():
        (folder / f"lines-{name}.txt").write_bytes(text)
    return folder / "lines-*.txt"


@pytest.mark.parametrize("text, lines", TEXTS)
def test_blocks_of_all_sizes_have_each_line_once(text, lines, tmp_path):
    (tmp_path / "x").write_bytes(text)
    for size in range(1, len(text) + 3):
        starts = range(0, max(len(text), 1), size)
        cut = [judged._Block(LocalFileSystem(), str(tmp_path / "x"), at, size).text() for at in starts]
        assert sum(map(judged._lines, cut), []) == lines, size


@pytest.mark.parametrize("block", [11, 1000])
def test_both_bags(client, tmp_path, block):
    texts = {
        "10": b"1985-04-12\n1985-4-12\n\n2020-01-01\r\n2020-01-02",  # no line feed at the end
        "2": b"",
        "3": b"x\n1985-04-12\n",
        "30": b"1985-04-12\n" * 20,
    }
    pattern = written(tmp_path, **texts)
    derived, refused = judge_files(Abnf(DAY), pattern, client, block=block)
    wanted = []
    for name, text in texts.items():  # a shell has this order too
        answers = abnf(DAY, text).out.split()
        lines = text.split(b"\n")
        assert len(answers) == len(lines) - (lines[-1] == b"")
        path = str(tmp_path / f"lines-{name}.txt")
        wanted += [(Line(path, at, lines[at - 1]), it) for at, it in enumerate(answers, 1)]
    assert derived.compute() == [it for it, answer in wanted if answer == b"yes"]
    assert refused.compute() == [it for it, answer in wanted if answer == b"no"]
    assert (derived.count().compute(), refused.count().compute()) == (23, 4)


def test_large_blocks(client, tmp_path):
    lines = [b"%04d-01-01" % at if at % 5 else b"%d" % at for at in range(30000)]
    derived, refused = judge_files(Abnf(DAY), written(tmp_path, a=b"\n".join(lines)), client, block=150000)
    assert [it.number - 1 for it in refused.compute()] == [at for at in range(30000) if len(lines[at]) != 10]
    assert derived.count().compute() == sum(len(it) == 10 for it in lines)


def test_lists_of_files_keep_their_order(client, tmp_path):
    written(tmp_path, a=b"x\n", b=b"y\n", c=b"z\n")
    given = [str(tmp_path / "lines-c.txt"), tmp_path / "lines-[ab]*.txt"]
    derived, refused = judge_files(Abnf(DAY), given, client)
    assert derived.compute() == []
    assert [it.text for it in refused.compute()] == [b"z", b"x", b"y"]


def test_what_cannot_be_judged(client, tmp_path):
    with pytest.raises(FileNotFoundError, match=r"no file matches .*/none-\*\.txt"):
        judge_files(Abnf(DAY), tmp_path / "none-*.txt", client)
    with pytest.raises(FileNotFoundError):
        judge_files(Abnf(DAY), tmp_path / "none.txt", client)
    with pytest.raises(ValueError, match="no files are given"):
        judge_files(Abnf(DAY), [], client)
    pattern = written(tmp_path, a=b"1985-04-12\n1985-04-123\n")
    derived, _ = judge_files(Abnf(DAY, limit=10), pattern, client)
    with pytest.raises(Overlong, match=r"lines-a.txt, from byte 0 on: line 2 longer than 10 bytes: b'1985-04-123'\.\."):
        derived.compute()
    derived, _ = judge_files(Abnf(DAY), pattern, client)
    wait(futures_of(derived))
    written(tmp_path, a=b"1985-04-12\n")
    with pytest.raises(OSError, match="has changed"):
        derived.compute()


def count_openings():
    """Counts in this process how often a grammar is opened."""
    opens = _library.AbnfJudge.__init__

    def opened(self, *words, **others):
        _library.openings = getattr(_library, "openings", 0) + 1
        opens(self, *words, **others)

    _library.AbnfJudge.__init__ = opened


def test_each_worker_opens_the_grammar_once(client, tmp_path):
    client.run(count_openings)
    pattern = written(tmp_path, **{str(it): b"1985-04-12\n" * 10 for it in range(10)})
    derived, refused = judge_files(Abnf(DAY + "; another grammar\n"), pattern, client, block=40)
    assert (derived.count().compute(), refused.count().compute()) == (100, 0)
    openings = client.run(lambda: getattr(_library, "openings", 0)).values()
    assert max(openings) == 1, openings


def test_a_killed_worker_changes_no_answer(client, tmp_path):
    lines = [b"%04d-%02d-%02d" % (at % 9999, at % 12, at % 7) if at % 3 else b"%d" % at for at in range(9000)]
    pattern = written(tmp_path, a=b"\n".join(lines[:6000]) + b"\n", b=b"\n".join(lines[6000:]))
    first, second, _ = client.run(os.getpid).values()
    derived, refused = judge_files(Abnf(DAY), pattern, client, block=1600)
    answers = futures_of(derived)
    while sum(it.done() for it in answers) < 6:
        time.sleep(0.002)
    os.kill(first, signal.SIGKILL)
    assert not all(it.done() for it in answers), "the worker was killed too late"
    assert [it.text for it in derived.compute()] == [it for it in lines if len(it) == 10]
    os.kill(second, signal.SIGKILL)  # with answers that it holds
    numbers = [it.number - 1 for it in refused.compute() if it.file.endswith("lines-a.txt")]
    assert numbers == list(range(0, 6000, 3))
