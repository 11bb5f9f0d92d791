"""Answers one question of the playground: a process of its own, within limits of time and memory.

It reads the question from standard input as JSON and writes its answer on standard output in parts, a line of JSON
each, so that what was found before a limit ends it stands. The first line of its input is the folder of the package,
the path of the shared object, and the limits. It bounds itself before it loads the library. If the first line has the
words of a command, the process becomes that program, whose last words are the files of the grammars that the question
is.
"""
import json
import os
import resource
import signal
import sys
import tempfile
from typing import Any, Dict, List

MEGABYTE = 1 << 20
MOST_RULES = 400  # that are drawn


def bound(memory: int, seconds: int, file: int) -> None:
    """Sets the limits of this process: its address space and what it writes to a file in bytes, and its processor time
    in seconds. The hard limit of time is a second above, so that the kernel says why it ends the process."""
    resource.setrlimit(resource.RLIMIT_AS, (memory, memory))
    resource.setrlimit(resource.RLIMIT_CPU, (seconds, seconds + 1))
    resource.setrlimit(resource.RLIMIT_FSIZE, (file, file))
    resource.setrlimit(resource.RLIMIT_NOFILE, (16, 16))
    resource.setrlimit(resource.RLIMIT_CORE, (0, 0))


def write(part: Dict[str, Any]) -> None:
    """Writes a part of the answer."""
    sys.stdout.write(json.dumps(part) + "\n")
    sys.stdout.flush()


def shown(found: Any) -> Dict[str, Any]:
    """Returns a finding for the page."""
    return {**found._asdict(), "rule": found.rule}


def answer(asked: Dict[str, str], most: int) -> None:
    """Writes what the page shows of a grammar and an input. Of an output it writes `most` bytes."""
    from fanquber import GrammarError, Letters, _grammars, abnf, diagrams, peg, trees
    from fanquber.findings import read_findings

    kind, rule = asked["kind"], asked["rule"] or None
    letters = Letters.UTF8 if asked["letters"] == "utf8" else Letters.BYTES
    grammar, given = asked["grammar"].encode(), asked["input"].encode()
    if asked["ends"] == "crlf":
        given = given.replace(b"\n", b"\r\n")
    whole = asked["cut"] == "whole"
    write({"findings": [shown(it) for it in _grammars.check(kind, grammar, rule, letters=letters, nul=whole)]})
    try:
        text = _grammars.canonical_text(kind, grammar)
        rules = trees.read_rules(kind, text)
        drawn = list(diagrams.svgs(kind, rules).items()) if len(rules) <= MOST_RULES else []
        write({"rules": list(rules), "canonical": text.decode("latin-1"), "diagrams": drawn})
    except (GrammarError, RecursionError):
        pass
    if kind == "peg":
        reply = peg(grammar, given, start=rule, explain=True)
    else:
        reply = abnf(grammar, given, rule=rule, letters=letters, viable=True, nul=whole, explain=True)
    stops = [shown(it) for it in read_findings(reply.err) if it.about == "input"]
    out = reply.out[:most].decode("latin-1")
    write({"stops": stops, "out": out, "status": int(reply.status), "cut": len(reply.out) > most})


def become(words: List[str], grammars: List[str]) -> None:
    """Runs a program in place of this process, with an empty environment. The files of the grammars have no names."""
    files = [tempfile.TemporaryFile() for _ in grammars]
    for file, grammar in zip(files, grammars):
        file.write(grammar.encode())
        file.flush()
        os.set_inheritable(file.fileno(), True)
    for it in (signal.SIGXFSZ, signal.SIGPIPE):  # which Python ignores, and so would the program
        signal.signal(it, signal.SIG_DFL)
    operands = (f"/proc/self/fd/{it.fileno()}" for it in files)
    environment: Dict[str, str] = {}
    os.execve(words[0], [it.encode() for it in (*words, *operands)], environment)


def main() -> None:
    start, question = json.loads(sys.stdin.buffer.readline()), json.loads(sys.stdin.buffer.readline())
    bound(start["memory"], start["seconds"], start["file"])
    if start["words"]:
        become(start["words"], question)
    sys.path.insert(0, start["folder"])
    os.environ["FANQUBER_LIBRARY"] = start["library"]
    try:
        answer(question, start["output"])
    except MemoryError:
        write({"status": 5})


if __name__ == "__main__":
    try:
        main()
    except BaseException:
        os._exit(70)  # which is the status of no program
