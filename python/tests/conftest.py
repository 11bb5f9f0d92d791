"""What tests share: the playground's server, which runs once, and programs."""
import subprocess
import sys

import pytest

from fanquber import ProgramMissing
from fanquber._programs import program_path


@pytest.fixture(scope="session")
def server():
    """Returns the address, with the secret, that a server prints."""
    words = [sys.executable, "-m", "fanquber", "playground", "--no-browser"]
    process = subprocess.Popen(words, stdout=subprocess.PIPE, text=True)
    yield process.stdout.readline().strip()
    process.terminate()
    process.wait(10)


@pytest.fixture
def programs():
    """Skips a test where abnfd or abnfg is missing."""
    try:
        for name in ("abnfd", "abnfg"):
            program_path(name)
    except ProgramMissing as fault:
        pytest.skip(str(fault))


@pytest.fixture
def stand_in(tmp_path, monkeypatch):
    """Returns what makes a program of a name out of the lines of a script for sh."""

    def made(name, script):
        file = tmp_path / name
        file.write_text(f"#!/bin/sh\n{script}\n")
        file.chmod(0o755)
        monkeypatch.setenv("FANQUBER_PROGRAMS", str(tmp_path))

    return made
