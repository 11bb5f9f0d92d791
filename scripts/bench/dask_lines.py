#!/usr/bin/env python3
"""Judges lines of files by fanquber.dask with three workers on this machine, beside one process of Python and `abnfi`
alone. Prints how long each takes, and compares the answers.

usage: dask_lines.py [MEGABYTES]

It needs bin/abnfi, bin/libfanquber.so.2, a Python with Dask (Debian: python3-distributed), and room for the lines in a
temporary folder; 10 megabytes if no number is given. The lines are those of RFC 3339 of scripts/bench/judge/lines.py,
again and again in 8 files, each with a line that is rejected at its end.
"""
import os
import pathlib
import subprocess
import sys
import tempfile
import time

from large_inputs import TOP, write_lines

os.environ.setdefault("FANQUBER_LIBRARY", str(TOP / "bin/libfanquber.so.2"))
os.environ["PYTHONPATH"] = str(TOP / "python")  # for the workers
sys.path.insert(0, str(TOP / "python"))

FILES, WORKERS = 8, 3


def timed(name, work):
    """Prints how long a function takes, and returns its result."""
    start = time.monotonic()
    result = work()
    print(f"{name}: {time.monotonic() - start:.1f} s, {result[0]} derived, {result[1]} not", flush=True)
    return result


def by_abnfi(folder):
    """Returns how many lines of the files `abnfi` answers by `yes`, and by `no`."""
    words = f"cat {folder}/lines-*.txt | {TOP}/bin/abnfi {folder}/g.abnf 2> /dev/null"
    answers = subprocess.run(["sh", "-c", words], stdout=subprocess.PIPE, check=False).stdout
    return answers.count(b"yes"), answers.count(b"no")


def by_python(folder, grammar):
    """Returns the same of one process that judges block after block."""
    answers = []
    for file in sorted(folder.glob("lines-*.txt")):
        with open(file, "rb") as lines:
            while block := lines.readlines(16 << 20):
                answers.append(sum(grammar.judge([it[:-1] for it in block])) + 1j * len(block))
    total = sum(answers)
    return int(total.real), int(total.imag - total.real)


def by_dask(folder, grammar):
    """Returns the same of three workers, and prints how long the judging alone takes."""
    from distributed import Client, LocalCluster, futures_of, wait
    from fanquber.dask import judge_files

    how = {"host": "127.0.0.1", "dashboard_address": None, "local_directory": str(folder), "silence_logs": "ERROR"}
    with LocalCluster(n_workers=WORKERS, threads_per_worker=1, **how) as cluster, Client(cluster) as client:
        start = time.monotonic()
        derived, refused = judge_files(grammar, folder / "lines-*.txt", client)
        wait(futures_of(derived))
        print(f"dask, judged: {time.monotonic() - start:.1f} s", flush=True)
        return timed("dask, judged and counted", lambda: tuple(
            it.result() for it in client.compute([derived.count(), refused.count()])
        ))


def main(words):
    from fanquber import Abnf

    with tempfile.TemporaryDirectory() as made:
        folder = pathlib.Path(made)
        write_lines("date", int(words[0] if words else 10) * 1_000_000 // FILES, folder)
        for number in range(FILES):
            os.link(folder / "lines", folder / f"lines-{number}.txt")
        grammar = Abnf.from_file(folder / "g.abnf")
        wanted = timed("abnfi", lambda: by_abnfi(folder))
        answers = [timed("one process of Python", lambda: by_python(folder, grammar)), by_dask(folder, grammar)]
    is_right = all(it == wanted for it in answers)
    print("all answers are those of abnfi" if is_right else "WRONG")
    return 0 if is_right else 1


if __name__ == "__main__":
    sys.exit(main(sys.argv[1:]))
