#!/usr/bin/env python3
"""Runs the tests of the package of python/ by pytest, over the shared object and the programs in bin/, and the rules
of its types by mypy, where Flask and Hypothesis are there, whose types it needs.

usage: python_test.py

The Python that runs the tests is the one that runs this script if it has pytest, or else /usr/bin/python3. A test
skips what it has no package for, and the script shows which; all is skipped where there is no pytest or no shared
object, and the script says so. scripts/gate/setup installs the packages on Debian. The status is 1 if a test fails.
"""
import os
import pathlib
import subprocess
import sys

TOP = pathlib.Path(__file__).resolve().parents[2]
LIBRARY = TOP / "bin/libfanquber.so.2"
# The seconds that the tests may take together, and after which the stack of a test is printed that has not ended.
SECONDS, STACK_AFTER = 1500, 120


def python_with(modules):
    """Returns a Python that has all of some modules, or None."""
    for it in (sys.executable, "/usr/bin/python3"):
        if pathlib.Path(it).is_file():
            found = subprocess.run([it, "-c", f"import {modules}"], stderr=subprocess.DEVNULL, check=False)
            if found.returncode == 0:
                return it
    return None


def run(*words):
    """Runs a command over the package, and returns whether it ended well in time."""
    environment = {**os.environ, "FANQUBER_LIBRARY": str(LIBRARY), "PYTHONPATH": str(TOP / "python")}
    try:
        return subprocess.run(words, cwd=TOP / "python", env=environment, timeout=SECONDS, check=False).returncode == 0
    except subprocess.TimeoutExpired:
        print(f"python: {' '.join(words)}: not ended after {SECONDS} seconds")
        return False


def main():
    if not LIBRARY.is_file():
        print("python: `make lib` has not made the shared object: skipped")
        return 0
    tester, checker = python_with("pytest"), python_with("mypy, flask, hypothesis")
    wrong = False
    if tester is None:
        print("python: no pytest (Debian: python3-pytest): skipped")
    else:
        options = ("-q", "-rs", "-p", "no:cacheprovider", "-o", f"faulthandler_timeout={STACK_AFTER}", "--durations=5")
        wrong |= not run(tester, "-B", "-m", "pytest", *options, "tests")
    if checker is None:
        print("python: no mypy, Flask or Hypothesis (Debian: mypy python3-flask python3-hypothesis): types skipped")
    else:
        wrong |= not run(checker, "-m", "mypy", f"--cache-dir={TOP / 'bin/.mypy_cache'}", "--strict", "fanquber")
    return 1 if wrong else 0


sys.exit(main())
