#!/usr/bin/env python3
"""Doubles texts of many shapes from 64 KB to 1 MB, and fails where the processor time of a run more than triples.

usage: growth.py [-v] [WORD ..]

bin/pegi and bin/abnfi check, print and explain texts of grammars; bin/abnfx joins texts of RFCs. Where WORDs are given,
only runs whose names have one of them are made. BIN names the folder of the programs, bin/ if not set. Prints the
seconds of each run that grows too fast, with -v of all, and at the end how many there are. Less than a tenth of a
second counts for nothing, and less than half a second is measured four times more. A run has 4 GB and 4 seconds; no
larger text of its shape is tried then. What is in KNOWN is printed and fails nothing, unless it is no longer steep.
"""
import os
import pathlib
import subprocess
import sys
import tempfile

from shapes import ABNF, BOTH, PEG, RFC, texts_of

BIN = pathlib.Path(os.environ.get("BIN") or pathlib.Path(__file__).resolve().parents[2] / "bin")
SIZES = [65536 << it for it in range(5)]
MOST, LEAST, PLAIN, AGAIN = 3.0, 0.1, 0.5, 4
BOUNDED = ["sh", "-c", 'ulimit -v 4000000; ulimit -t 4; exec "$@"', "sh"]
CHECKS = (("-m", "check"), ("-m", "print"), ("-x", "-m", "check"))
RUNS = (("pegi", CHECKS, PEG), ("abnfi", CHECKS, ABNF), ("abnfx", ((), ("-c",)), RFC))
# Runs that are quadratic today.
KNOWN = set()


def seconds(words, times=1):
    """Returns the least processor time of some runs; infinity where one is ended."""
    took = []
    for _ in range(times):
        child = subprocess.Popen([*BOUNDED, *words], stdin=subprocess.DEVNULL, stdout=subprocess.DEVNULL,
                                 stderr=subprocess.DEVNULL)
        _, status, used = os.wait4(child.pid, 0)
        child.returncode = os.waitstatus_to_exitcode(status)
        took.append(used.ru_utime + used.ru_stime if child.returncode >= 0 else float("inf"))
    return min(took)


def is_steep(took):
    """Returns whether a run was ended, or takes too much more than that on the text before."""
    return took[-1] == float("inf") or len(took) > 1 and took[-1] > max(LEAST, MOST * took[-2])


def times_of(words, files):
    """Returns the seconds of a run on each text, up to the first that is steep."""
    took = []
    for at, file in enumerate(files):
        took.append(seconds([*words, file]))
        if is_steep(took) and took[-1] < PLAIN:
            took[-2:] = (min(old, seconds([*words, it], AGAIN)) for old, it in zip(took[-2:], files[at - 1:]))
        if is_steep(took):
            break
    return took


def main(words):
    shown, words = "-v" in words, [it for it in words if it != "-v"]
    made = steep = wrong = 0
    with tempfile.TemporaryDirectory(prefix="growth-") as folder:
        files = [os.path.join(folder, str(size)) for size in SIZES]
        for tool, modes, shapes in RUNS:
            for name, shape in shapes.items():
                asked = {f"{' '.join((tool, *mode))}: {name}": mode for mode in modes}
                asked = {it: mode for it, mode in asked.items() if not words or any(word in it for word in words)}
                for text, file in zip(texts_of(shape, SIZES, tool == "pegi" and name in BOTH) if asked else (), files):
                    pathlib.Path(file).write_bytes(text)
                for it, mode in asked.items():
                    took = times_of([BIN / tool, *mode], files)
                    is_wrong = is_steep(took)
                    made, steep, wrong = made + 1, steep + is_wrong, wrong + (is_wrong != (it in KNOWN))
                    if is_wrong or shown or it in KNOWN:
                        row = " | ".join(f"{seconds_of:.3f}" for seconds_of in took)
                        print(f"| {it} | {row} |{' KNOWN' if it in KNOWN else ''}", flush=True)
    print(f"growth: {made} runs, {steep} steep, {wrong} of them not known, or known and not steep")
    return 1 if wrong else 0


sys.exit(main(sys.argv[1:]))
