"""Runs of the program abnfd(1)."""
import contextlib
import os
import shutil
import subprocess
import tempfile
from typing import IO, Iterator, Sequence

from ._library import FanquberError, OutOfMemory, Reply, Status, Text, as_bytes, loaded_path

_OF_WORDS = b"error: "  # how a message on the words of a command begins


class ProgramMissing(FanquberError):
    """A program is not installed. `program` is its name."""

    def __init__(self, program: str) -> None:
        super().__init__(program)
        self.program = program

    def __str__(self) -> str:
        places = "in FANQUBER_PROGRAMS, beside the shared object or on PATH"
        return f"{self.program} is not {places}: `make {self.program}` makes it in bin/"


class ProgramFailed(FanquberError):
    """A program ended without an answer: by a signal or a fault of a file, or since it is of another version."""


def program_path(name: str) -> str:
    """Returns the file of a program: in the folder that FANQUBER_PROGRAMS names, or else in that of the shared object,
    where a wheel and `make` put it, or else on PATH. `ProgramMissing` if it is in none."""
    beside = os.path.dirname(loaded_path())
    places = (os.environ.get("FANQUBER_PROGRAMS"), beside, os.environ.get("PATH", os.defpath))
    found = shutil.which(name, path=os.pathsep.join(it for it in places if it))
    if found is None:
        raise ProgramMissing(name)
    return os.path.abspath(found)


@contextlib.contextmanager
def _started(
    words: Sequence[Text], grammars: Sequence[bytes], err: IO[bytes]
) -> Iterator["subprocess.Popen[bytes]"]:
    """Starts a program and ends it. It reads each grammar from a file without a name."""
    with contextlib.ExitStack() as files:
        given = [files.enter_context(tempfile.TemporaryFile()) for _ in grammars]
        for file, grammar in zip(given, grammars):
            file.write(grammar)
            file.flush()
        numbers = [it.fileno() for it in given]
        process = subprocess.Popen(
            [*map(as_bytes, words), *(f"/proc/self/fd/{it}".encode() for it in numbers)],
            stdin=subprocess.DEVNULL,
            stdout=subprocess.PIPE,
            stderr=err,
            pass_fds=numbers,
        )
    with process:
        try:
            yield process
        except BaseException:  # also where a generator is closed
            process.kill()
            raise


def _status(words: Sequence[Text], code: int, err: bytes) -> Status:
    """Returns the status of a run that came to an answer, or raises what it stands for."""
    name = os.path.basename(os.fsdecode(words[0]))
    if code == Status.NO_MEMORY:
        raise OutOfMemory("out of memory")
    if code < 0:
        raise ProgramFailed(f"{name} was ended by signal {-code}")
    if code >= Status.FAULT or err.startswith(_OF_WORDS):
        raise ProgramFailed(f"{name}: {err.decode('utf-8', 'backslashreplace').partition(chr(10))[0]}")
    return Status(code)


def run(words: Sequence[Text], grammars: Sequence[bytes]) -> Reply:
    """Returns what a program writes. `OutOfMemory` if an allocation fails, `ProgramFailed` if there is no answer."""
    with tempfile.TemporaryFile() as err:
        with _started(words, grammars, err) as process:
            out, _ = process.communicate()
        err.seek(0)
        said = err.read()
    return Reply(out, said, _status(words, process.returncode, said))
