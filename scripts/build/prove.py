#!/usr/bin/env python3
"""Proves the crates that programs and static libraries stand on, builds these, and puts each into bin/.

usage: prove.py NAME..

It runs `rt ci` in a copy that has these crates alone, without their edits. `rt ci` loads the statements of a library,
not its proofs. In some kits it keeps on the machine what it passed: a later run takes that, and so does the gate. A
program comes into bin/ as soon as it is built.

The longest chain of crates decides how long that takes. `rt ci` divides the processors among the crates that can be
proved at a time. So where there are four processors and 12 GB of memory, and `rt ci` keeps what it passed, a second run
proves the crates of that chain alone, and each of them gets several processors. The first run has a lower priority, and
takes what the second proved.

A line says which crate begins, which is proved, in how many seconds, and how many are left. bin/proof_seconds.txt lists
the seconds of wall clock of each crate that this checkout proved. If a crate is not proved, the script shows what `rt`
says of it, and ends with 1 once the other crates are done. An interrupt ends `rt` too.

JOBS says how many processors it may use; if it is not set, as many as there are and as memory allows. RT names the
command, `rt` if not set.
"""
import os
import pathlib
import queue
import re
import shutil
import signal
import subprocess
import sys
import tempfile
import threading
import time

sys.path.insert(0, str(pathlib.Path(__file__).resolve().parents[1]))  # scripts/, for what groups share
from build.library import make_archive
from crates import below, in_order, is_static, lines_of, uses
from kit import keeps_work

TOP = pathlib.Path(__file__).resolve().parents[2]
RT = os.environ.get("RT", "rt").split()
SECONDS = TOP / "bin/proof_seconds.txt"
# The processors and the bytes of memory for two runs at a time.
PROCESSORS, MEMORY = 4, 12 << 30
# What `rt ci` says of a crate when it is done with it.
DONE = re.compile(r"rt: (\w+) (proved|is kept|NOT PROVED)\b.*")


def copy_crates(needed, tree):
    """Copies these crates without their edits to a new folder that `rt ci` takes for a repository."""
    for crate in needed:
        leave_out = shutil.ignore_patterns("must-fail", "out")
        shutil.copytree(TOP / "crates" / crate, tree / "crates" / crate, ignore=leave_out)
    (tree / "crates.txt").write_text("".join(f"{it}\n" for it in lines_of(TOP, needed)))
    shutil.copy(TOP / "HANDLES", tree)
    (tree / ".git").mkdir()


def environment():
    """Returns the environment of `rt ci`: its lines come at once, and it uses as many processors as JOBS says."""
    jobs = os.environ.get("JOBS")
    if jobs and not re.fullmatch("[1-9][0-9]*", jobs):
        sys.exit(f"JOBS={jobs}: no number from 1 on")
    return {**os.environ, "PYTHONUNBUFFERED": "1", **({"RT_JOBS": jobs} if jobs else {})}


def put_seconds(measured):
    """Writes the seconds that crates took, with those of earlier runs."""
    rows = SECONDS.read_text().split("\n")[1:-1] if SECONDS.is_file() else []
    known = {**dict(it.split() for it in rows), **measured}
    text = "".join(f"{crate} {known[crate]}\n" for crate in sorted(known))
    SECONDS.write_text(f"# The seconds of wall clock in which this checkout proved each crate.\n{text}")


def size_of(crate):
    """Returns how many bytes the code and the proofs of a crate have."""
    files = (it for part in ("src", "specs", "proofs") for it in (TOP / "crates" / crate / part).rglob("*.*t"))
    return sum(it.stat().st_size for it in files)


def chains(crates):
    """Returns the bytes of the longest chain of uses from each of these crates down."""
    direct, found = uses(TOP), {}
    for it in in_order(TOP):
        if it in crates:
            found[it] = size_of(it) + max((found[low] for low in direct[it]), default=0)
    return found


def early_crates(named, needed):
    """Returns the crates of the long chains below the main library of each program, with those on which these stand."""
    sizes, direct, tops = chains(needed), uses(TOP), set()
    for crate in named:
        main = max(direct[crate], key=sizes.get)
        most = max((sizes[it] for it in direct[main]), default=0)
        tops |= {it for it in direct[main] if sizes[it] > 0.7 * most}
    return tops | {it for crate in tops for it in below(TOP, crate)}


def has_room():
    """Returns whether there are processors and memory for two runs at a time, and one takes what the other proved."""
    pages = os.sysconf("SC_AVPHYS_PAGES") * os.sysconf("SC_PAGE_SIZE")
    has_processors = not os.environ.get("JOBS") and len(os.sched_getaffinity(0)) >= PROCESSORS
    return has_processors and pages >= MEMORY and keeps_work(RT)


class Run:
    """A run of `rt ci` over a copy of some crates. It puts each line with itself into a queue, and None at its end."""

    def __init__(self, crates, tree, lines, command):
        self.tree, self.lines, self.section, self.last = tree, lines, [], ""
        tree.mkdir()
        copy_crates(crates, tree)
        # A process group of its own, but no session: Linux may divide the processors by sessions, and heeds priorities
        # within each alone.
        self.process = subprocess.Popen(
            [*command, *RT, "ci"], cwd=tree, env=environment(), stdin=subprocess.DEVNULL, stdout=subprocess.PIPE,
            stderr=subprocess.STDOUT, text=True, errors="replace", preexec_fn=os.setpgrp
        )
        threading.Thread(target=self.read, daemon=True).start()

    def read(self):
        for line in self.process.stdout:
            self.lines.put((self, line.rstrip("\n")))
        self.lines.put((self, None))

    def close(self):
        """Ends the run if it goes on."""
        if self.process.poll() is None:
            os.killpg(self.process.pid, signal.SIGTERM)
            self.process.wait()


class Work:
    """The runs of `rt ci`: one over all crates that are needed, and one over those of the long chains."""

    def __init__(self, named, folder):
        self.named, self.lines = named, queue.Queue()
        self.left = {*named, *(it for crate in named for it in below(TOP, crate))}
        self.begun, self.seconds = {}, {}
        early = early_crates(named, self.left) if has_room() else set()
        self.runs = [Run(early, folder / "early", self.lines, [])] if early else []
        self.all = Run(self.left, folder / "all", self.lines, ["nice"] if early else [])
        self.runs.append(self.all)

    def look(self):
        """Says which crates have begun: `rt ci` makes a folder out/ for each."""
        for crate in sorted(self.left - self.begun.keys()):
            if any((it.tree / "crates" / crate / "out").is_dir() for it in self.runs):
                self.begun[crate] = time.monotonic()
                print(f"{crate}: begins", flush=True)

    def hear(self, run, line):
        """Takes a line of a run."""
        run.section = [line] if line.startswith("== ") else [*run.section, line]
        run.last = line
        found = DONE.fullmatch(line)
        if found and found[1] in self.left:
            self.end(run, found[1], found[2])
        elif line.startswith("rt: ") and not found and run is self.all and "another run" not in line:
            print(line, flush=True)

    def end(self, run, crate, how):
        """Ends a crate: says what became of it, and puts what was built of it into bin/."""
        self.left.remove(crate)
        if how == "NOT PROVED":
            print("\n".join(run.section), flush=True)
            return
        seconds = round(time.monotonic() - self.begun.get(crate, time.monotonic()))
        if how == "proved":
            self.seconds[crate] = seconds
        said = f"proved in {seconds} s" if how == "proved" else "proved earlier"
        print(f"{crate}: {said}, {len(self.left)} left", flush=True)
        built = run.tree / "crates" / crate / "out" / crate
        if crate in self.named and built.is_file():
            shutil.copy(built, TOP / "bin" / crate)
            print(f"bin/{crate}: made", flush=True)

    def follow(self):
        """Follows the runs to the end of the one over all crates, and returns its status."""
        while True:
            self.look()
            try:
                run, line = self.lines.get(timeout=0.2)
            except queue.Empty:
                continue
            if line is not None:
                self.hear(run, line)
            elif run is self.all:
                return run.process.wait()

    def close(self):
        """Ends the runs that go on."""
        for run in self.runs:
            run.close()


def stop(number, _):
    """Ends the script at an interrupt."""
    print("interrupted", flush=True)
    sys.exit(128 + number)


def main(named):
    for it in (signal.SIGINT, signal.SIGTERM, signal.SIGHUP):
        signal.signal(it, stop)
    (TOP / "bin").mkdir(exist_ok=True)
    start = time.monotonic()
    with tempfile.TemporaryDirectory(prefix="fanquber-") as folder:
        work = Work(named, pathlib.Path(folder))
        print(f"{len(work.left)} crates to prove", flush=True)
        try:
            status = work.follow()
            for crate in named if status == 0 else ():
                if is_static(TOP, crate):
                    make_archive(work.all.tree, crate, TOP / "bin" / f"lib{crate}.a")
        finally:
            work.close()
            put_seconds(work.seconds)
    print(f"{'proved' if status == 0 else work.all.last}, in {time.monotonic() - start:.0f} s", flush=True)
    return status


if __name__ == "__main__":
    sys.exit(main(sys.argv[1:]))
