#!/usr/bin/env python3
"""Runs the gate and prints what it costs: minutes of processor time of each crate's proof, tests and edits.

usage: gate_cost.py [WORD ..]

The words are those of another command of `rt`, as `must-fail feed`; with none it is `ci`. It runs in a copy of what git
tracks, in a temporary folder. `ci` and `must-fail` run with `--anew`, where `rt` else takes what an earlier run on this
machine passed. So the figures of `ci` are those of a gate from nothing, and `must-fail` tries each edit; but it takes
the crates below from another checkout, if one has proved them. With the word `--kept` it takes what passed, so that a
gate can be measured in parts, as by `ci --kept NAME ..` and then `ci --kept`. RT names the command, `rt` if not set.

proofs: each crate proved from nothing. tests: the crate proved again with its tests. edits: the edits that the prover
must reject, and the proof of the crate from which they begin. rest: what compiles, links and runs, and the work of `rt`
itself.

The processor time of each process of the prover is read twice a second, so a process that ends between two readings
misses up to half a second. The total is exact.
"""
import collections
import os
import pathlib
import resource
import shutil
import subprocess
import sys
import tempfile
import time

sys.path.insert(0, str(pathlib.Path(__file__).resolve().parents[1]))  # scripts/, for what groups share
from crates import in_order
from kit import keeps_work

TOP = pathlib.Path(__file__).resolve().parents[2]
RT = os.environ.get("RT", "rt").split()
PARTS = ("proofs", "tests", "edits")
# The commands that take what an earlier run passed, but for `--anew`.
FROM_NOTHING = ("ci", "must-fail")
TICKS = os.sysconf("SC_CLK_TCK")


def copy_tree(to):
    """Copies what git tracks, as it stands in the working tree."""
    names = subprocess.run(["git", "ls-files", "-z"], cwd=TOP, check=True, capture_output=True, text=True).stdout
    for name in filter(None, names.split("\0")):
        if (TOP / name).is_file():
            (to / name).parent.mkdir(parents=True, exist_ok=True)
            shutil.copy(TOP / name, to / name)
    subprocess.run(["git", "init", "-q", "."], cwd=to, check=True)


def part_of(words, folder):
    """Returns the crate and the part for which a process of the prover works; none for any other process."""
    if pathlib.Path(words[0]).name != "rattle" or "--crate-name" not in words:
        return None
    crate = words[words.index("--crate-name") + 1]
    if pathlib.Path(folder).name.startswith("rt-edit-"):
        return crate, "edits"
    return crate, "tests" if "--test" in words else "proofs"


def read_processes(session, found):
    """Notes the processor time so far of each process of the prover in the session."""
    for folder in pathlib.Path("/proc").glob("[0-9]*"):
        try:
            fields = (folder / "stat").read_text().rpartition(")")[2].split()
            if int(fields[3]) != session:
                continue
            words = (folder / "cmdline").read_bytes().decode(errors="replace").split("\0")
            part = part_of(words, os.readlink(folder / "cwd"))
        except (OSError, ValueError, IndexError):
            continue
        if part:
            found[folder.name, fields[19]] = part, (int(fields[11]) + int(fields[12])) / TICKS


def run_and_read(words, folder):
    """Runs a command of `rt`. Returns its exit status, the minutes of each crate and part, and all minutes."""
    found = {}
    with tempfile.TemporaryFile("w+") as out:
        run = subprocess.Popen([*RT, *words], cwd=folder, stdout=out, stderr=subprocess.STDOUT, start_new_session=True)
        while run.poll() is None:
            read_processes(run.pid, found)
            time.sleep(0.5)
        out.seek(0)
        print("".join(out.readlines()[-5:]), end="")
    used = resource.getrusage(resource.RUSAGE_CHILDREN)
    minutes = collections.Counter()
    for part, seconds in found.values():
        minutes[part] += seconds / 60
    return run.returncode, minutes, (used.ru_utime + used.ru_stime) / 60


def command_of(words):
    """Returns the words of the command, which takes nothing from earlier runs unless it is to."""
    name, *others = words or ["ci"]
    anew = ["--anew"] * (name in FROM_NOTHING and "--kept" not in others and keeps_work(RT))
    return [name, *anew, *(it for it in others if it not in ("--anew", "--kept"))]


def main(words):
    with tempfile.TemporaryDirectory(prefix="gate-") as folder:
        copy_tree(pathlib.Path(folder))
        start = time.monotonic()
        status, minutes, total = run_and_read(command_of(words), folder)
        wall = (time.monotonic() - start) / 60
    print(f"\n| Crate | {' | '.join(PARTS)} | sum |\n|---|{'---|' * (len(PARTS) + 1)}")
    for crate in in_order(TOP):
        row = [minutes[crate, part] for part in PARTS]
        if sum(row):
            print(f"| `{crate}` | {' | '.join(f'{it:.1f}' if it else '' for it in row)} | {sum(row):.1f} |")
    sums = [sum(it for (_, at), it in minutes.items() if at == part) for part in PARTS]
    print(f"| all | {' | '.join(f'{it:.1f}' for it in sums)} | {sum(sums):.1f} |")
    print(f"\nrest: {total - sum(sums):.1f}; in all {total:.1f} minutes of processor time, {wall:.1f} of wall clock")
    return status


sys.exit(main(sys.argv[1:]))
