"""The wheel, in a virtual environment of its own that has neither the toolchain nor the sources."""
import os
import pathlib
import shutil
import subprocess
import sys

import pytest

import fanquber
from fanquber import _library

TOP = pathlib.Path(__file__).resolve().parents[2]
SCRIPT = """
import sys, fanquber
from fanquber import Abnf, Peg
assert fanquber.__file__.startswith(sys.prefix), fanquber.__file__
day = Abnf('day = 4DIGIT "-" 2DIGIT "-" 2DIGIT')
assert day.judge(["1985-04-12", "1985-4-12"]) == [True, False]
assert day.refusal("1985").expected[0].startswith('"-"')
assert list(day.rules) == ["day"]
assert Peg("S <- < [a-z]+ > { (yytext) }").run("tea").out == b"(tea)\\n"
assert next(day.lines()) == b"0000-00-00"
assert fanquber.compare('a = 1*"x"', 'a = "x" [a]').same
"""


def run(*words, **others):
    """Runs a command without the environment of the tests, and returns what it ended with."""
    environment = {"PATH": "/usr/bin:/bin", "HOME": os.environ.get("HOME", "/")}
    return subprocess.run([str(it) for it in words], env=environment, capture_output=True, text=True, **others)


def makers():
    """Returns whether a Python has what makes a wheel, and what makes an environment."""
    return all(
        subprocess.run(["/usr/bin/python3", "-c", f"import {it}"], stderr=subprocess.DEVNULL).returncode == 0
        for it in ("setuptools", "wheel", "ensurepip")
    )


def has_programs():
    """Returns whether the programs that a wheel has inside stand beside the shared object."""
    library = pathlib.Path(_library.library_path())
    return all(library.with_name(it).is_file() for it in ("abnfd", "abnfg"))


@pytest.mark.skipif(not (TOP / "scripts/build/wheel.py").is_file(), reason="needs the repository")
@pytest.mark.skipif(not has_programs(), reason="needs abnfd and abnfg beside the shared object")
@pytest.mark.skipif(not shutil.which("readelf"), reason="needs readelf (Debian: binutils)")
@pytest.mark.skipif(not makers(), reason="needs python3-setuptools, python3-wheel and python3-venv")
def test_wheel(tmp_path):
    made = run(sys.executable, "-B", TOP / "scripts/build/wheel.py", _library.library_path(), tmp_path)
    assert made.returncode == 0, made.stderr
    wheel = pathlib.Path(made.stdout.strip())
    assert wheel.name.startswith(f"fanquber-{fanquber.__version__}-py3-none-manylinux")
    made = run("/usr/bin/python3", "-m", "venv", tmp_path / "venv")
    assert made.returncode == 0, made.stdout
    python = tmp_path / "venv/bin/python"
    made = run(python, "-m", "pip", "install", "-q", "--no-index", "--disable-pip-version-check", wheel)
    assert made.returncode == 0, made.stderr
    ran = run(python, "-c", SCRIPT, cwd=tmp_path)
    assert (ran.returncode, ran.stderr) == (0, "")
    # What a command lacks is reported in one line, with Debian's package
    ran = run(tmp_path / "venv/bin/fanquber", "diagrams", "x.abnf")
    wanted = "fanquber: diagrams needs railroad: pip install 'fanquber[diagrams]' (Debian: python3-railroad-diagrams)\n"
    assert (ran.returncode, ran.stderr) == (1, wanted)
