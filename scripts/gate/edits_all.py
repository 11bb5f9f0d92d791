#!/usr/bin/env python3
"""Tries every edit that must fail: those of the gate, in crates/NAME/must-fail/, and those in must-fail/NAME/.

usage: edits_all.py [--anew] [NAME ..]

The names are those of crates; with none, each crate that has an edit. The script copies crates/, crates.txt and HANDLES
into a temporary folder, puts the edits of both folders beside each other there, and runs `rt ci`. Given names, the
copy has these crates and those that they use. Where `rt ci` keeps what it passed, it takes what the gate proved on this
machine, and the edits that it tried, if nothing has changed since; with `--anew` it proves and tries all. RT names the
command, `rt` if not set.

The status is 0 if the prover rejects each edit, and that of `rt ci` if not. An edit that cannot be applied or compiled
fails too, with status 1. The status is 2 where a name is no crate's, or the crate has no edit.
"""
import os
import pathlib
import shutil
import subprocess
import sys
import tempfile

sys.path.insert(0, str(pathlib.Path(__file__).resolve().parents[1]))  # scripts/, for what groups share
from crates import below, in_order, lines_of
from kit import keeps_work

TOP = pathlib.Path(__file__).resolve().parents[2]
RT = os.environ.get("RT", "rt").split()
# What `rt ci` says of an edit that it could not try. It does not fail for that.
BAD = ": BAD EDIT"


def edits_of(crate):
    """Returns the edits of a crate: those of the gate, and the others."""
    return [*TOP.glob(f"crates/{crate}/must-fail/*.edit"), *TOP.glob(f"must-fail/{crate}/*.edit")]


def make_tree(to, crates):
    """Copies these crates and those below, without what a build leaves, and puts their edits into their folders."""
    needed = {*crates, *(it for crate in crates for it in below(TOP, crate))}
    leave_out = shutil.ignore_patterns("out", "must-fail", "__pycache__")
    for crate in needed:
        shutil.copytree(TOP / "crates" / crate, to / "crates" / crate, ignore=leave_out)
    (to / "crates.txt").write_text("".join(f"{it}\n" for it in lines_of(TOP, needed)))
    shutil.copy(TOP / "HANDLES", to)
    for crate in crates:
        folder = to / "crates" / crate / "must-fail"
        folder.mkdir()
        for edit in edits_of(crate):
            shutil.copy(edit, folder / edit.name)


def ci(words, folder):
    """Runs `rt ci` in a folder, shows what it prints, and returns its status, or 1 if it could not try an edit."""
    has_bad = False
    with subprocess.Popen(
        [*RT, "ci", *words], cwd=folder, stdout=subprocess.PIPE, stderr=subprocess.STDOUT, text=True, errors="replace"
    ) as run:
        for line in run.stdout:
            print(line, end="", flush=True)
            has_bad = has_bad or BAD in line
    return run.returncode or int(has_bad)


def main(words):
    names = [it for it in words if it != "--anew"]
    having = [it for it in in_order(TOP) if edits_of(it)]
    lacking = [it for it in names if it not in having]
    if lacking:
        print(f"edits_all.py: no crate of this name has an edit: {' '.join(lacking)}", file=sys.stderr)
        return 2
    crates = names or having
    with tempfile.TemporaryDirectory(prefix="edits-all-") as room:
        make_tree(pathlib.Path(room), crates)
        status = ci(["--anew"] * ("--anew" in words and keeps_work(RT)), room)
    print("edits_all.py:", "an edit was not refused, or not tried: see above" if status else "each edit was refused")
    return status


sys.exit(main(sys.argv[1:]))
