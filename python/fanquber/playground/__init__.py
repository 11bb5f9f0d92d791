"""A page on this machine that shows what a grammar means while it is typed.

The server answers on 127.0.0.1 alone, and only the page that it gave out itself: each question bears a secret that
stands in the address which is printed. A question is a grammar and an input, or two grammars; it names no file, and
none is read or written for it. A process of its own answers each, within limits. HTTP is that of waitress and Flask,
the editor CodeMirror 5, which FANQUBER_CODEMIRROR names the folder of where it is not that of Debian.
"""
import hmac
import json
import os
import pathlib
import secrets
import shlex
import signal
import subprocess
import sys
import tempfile
import threading
import time
import webbrowser
from typing import Any, Callable, Dict, FrozenSet, List, NamedTuple, Set, Tuple

import flask
import railroad  # noqa: F401, the worker draws by it
import waitress

from .._library import Status, loaded_path
from .._programs import ProgramMissing, program_path
from ..comparisons import read_comparison
from ..names import first_rule
from .worker import MEGABYTE

MOST = 256 * 1024
"""The bytes that a question may have."""
AT_ONCE = 2
"""How many answers may be made at a time."""
WAIT = 10.0
"""For how long, in seconds, a question waits for others before it is rejected."""
_HERE = pathlib.Path(__file__).parent
_EDITOR = pathlib.Path(os.environ.get("FANQUBER_CODEMIRROR") or "/usr/share/javascript/codemirror")
_FILES = {
    "page.js": (_HERE, "text/javascript"),
    "page.css": (_HERE, "text/css"),
    "diagrams.css": (_HERE.parent / "data", "text/css"),
    "lib/codemirror.js": (_EDITOR, "text/javascript"),
    "lib/codemirror.css": (_EDITOR, "text/css"),
    "addon/mode/simple.js": (_EDITOR, "text/javascript"),
    "addon/lint/lint.js": (_EDITOR, "text/javascript"),
    "addon/lint/lint.css": (_EDITOR, "text/css"),
}
_HEADERS = {
    "Content-Security-Policy": "default-src 'none'; script-src 'self'; style-src 'self'; img-src 'self' data:; "
    "connect-src 'self'; base-uri 'none'; form-action 'none'; frame-ancestors 'none'",
    "X-Content-Type-Options": "nosniff",
    "X-Frame-Options": "DENY",
    "Referrer-Policy": "no-referrer",
    "Cross-Origin-Opener-Policy": "same-origin",
    "Cross-Origin-Resource-Policy": "same-origin",
    "Cache-Control": "no-store",
}
_CHOICES = {
    "kind": ("abnf", "peg"),
    "letters": ("bytes", "utf8"),
    "cut": ("lines", "whole"),
    "ends": ("lf", "crlf"),
    "count": ("20", "100", "1000"),
    "length": ("16", "64", "256"),
}
_NAMES = ("rule", "old_rule")
# The texts of each question.
_ANSWER = frozenset(("grammar", "input", "rule", "kind", "letters", "cut", "ends"))
_SAMPLES = frozenset(("grammar", "rule", "letters", "cut", "count", "length"))
_COMPARISON = frozenset(("old", "old_rule", "grammar", "rule", "letters"))
# What ended a process early, by its status.
_EARLY = {-signal.SIGXCPU: "time", -signal.SIGXFSZ: "output"}


class Limits(NamedTuple):
    """What one answer may take."""

    memory: int = 512 * MEGABYTE
    """Address space, in bytes."""
    processor: int = 5
    """Processor time, in seconds."""
    clock: float = 6.0
    """Time on the clock, in seconds."""
    output: int = MEGABYTE
    """Bytes of the run's output that are shown."""


class Ended(NamedTuple):
    """What a process wrote, its status, and what ended it early: nothing, `time`, `output` or `a signal`."""

    out: bytes
    err: bytes
    status: int
    early: str


def answer(asked: Dict[str, str], limits: Limits = Limits()) -> Dict[str, Any]:
    """Returns all that the page shows of a grammar and an input. `broken_by` says what ended the run early: nothing,
    `time`, `output`, `a signal` or `a fault`."""
    began = time.monotonic()
    said: Dict[str, Any] = {
        "rules": [],
        "canonical": "",
        "diagrams": [],
        "findings": [],
        "stops": [],
        "out": "",
        "status": None,
    }
    ended = _work([], asked, limits, 32 * MEGABYTE)
    # The last line of a process that was ended may be cut
    for line in ended.out.split(b"\n")[:-1]:
        said.update(json.loads(line))
    fault = "a fault" if ended.status else ""
    said["broken_by"] = ended.early or fault or ("output" if said.pop("cut", False) else "")
    said["command"] = script(asked)
    said["milliseconds"] = round(1000 * (time.monotonic() - began))
    return said


def samples(asked: Dict[str, str], limits: Limits = Limits()) -> Dict[str, Any]:
    """Returns the first lines that the rule derives, each with its bytes as Latin-1, and the command that lists them.
    `broken_by` says what it does in `answer`, `missing` names the program if it is not there, and `messages` has what
    it writes on the grammar."""
    whole = asked["cut"] == "whole"
    options = ["-z"] * whole + ["-c", asked["count"], "-l", asked["length"], *_letters(asked)]
    options += ["-s=" + asked["rule"]] if asked["rule"] else []
    said, out = _run("abnfg", options, [asked["grammar"]], limits)
    # After the last end stands nothing, or a line that is cut
    said["lines"] = out.decode("latin-1").split("\0" if whole else "\n")[:-1]
    said["command"] = shlex.join(["abnfg", *options, "grammar.abnf"])
    return said


def comparison(asked: Dict[str, str], limits: Limits = Limits()) -> Dict[str, Any]:
    """Returns what `samples` does, with `answer` and `alone` in place of lines: `same`, `differ`, `not known` or empty,
    and for the earlier and the present grammar what it alone derives, as text, and as a line if one is known."""
    rule, old_rule = asked["rule"], asked["old_rule"]
    options = _letters(asked)
    if old_rule:
        options += ["-s=" + old_rule, "-t=" + (rule or first_rule("abnf", asked["grammar"].encode()))]
    elif rule:
        options += ["-s=" + rule]
    said, out = _run("abnfd", options, [asked["old"], asked["grammar"]], limits)
    found = read_comparison(out)
    sides = (found.old_alone, found.new_alone) if found else ()
    said["answer"] = str(found).partition("\n")[0] if found else ""
    said["alone"] = [[str(it), it.line.decode("latin-1") if it.line is not None else None] for it in sides]
    said["command"] = shlex.join(["abnfd", *options, "old.abnf", "new.abnf"])
    return said


def _letters(asked: Dict[str, str]) -> List[str]:
    return ["-u", "utf8"] if asked["letters"] == "utf8" else []


def _run(name: str, options: List[str], grammars: List[str], limits: Limits) -> Tuple[Dict[str, Any], bytes]:
    """Returns what the page shows of the run of a program, and its output."""
    began = time.monotonic()
    said: Dict[str, Any] = {"status": None, "messages": [], "broken_by": "", "missing": "", "milliseconds": 0}
    try:
        path = program_path(name)
    except ProgramMissing:
        said["missing"] = name
        return said, b""
    ended = _work([path, *options], grammars, limits, limits.output)
    if ended.early or ended.status > Status.NO_MEMORY:
        said["broken_by"] = ended.early or "a fault"
    else:
        said.update(status=ended.status, messages=ended.err.decode("latin-1").split("\n")[:-1])
    said["milliseconds"] = round(1000 * (time.monotonic() - began))
    return said, ended.out


def _work(words: List[str], question: Any, limits: Limits, file: int) -> Ended:
    """Runs the worker on a question, or as the program of some words on grammars. It may write so many bytes to a
    file."""
    start = {
        "folder": str(_HERE.parents[1]),
        "library": loaded_path(),
        "words": words,
        "memory": limits.memory,
        "seconds": limits.processor,
        "output": limits.output,
        "file": file,
    }
    with tempfile.TemporaryFile() as given, tempfile.TemporaryFile() as out, tempfile.TemporaryFile() as err:
        given.write(b"".join(json.dumps(it).encode() + b"\n" for it in (start, question)))
        given.seek(0)
        worker = [sys.executable, "-I", "-B", str(_HERE / "worker.py")]
        environment: Dict[str, str] = {}
        process = subprocess.Popen(
            worker, stdin=given, stdout=out, stderr=err, env=environment, cwd="/", start_new_session=True
        )
        try:
            status = process.wait(limits.clock)
        except subprocess.TimeoutExpired:
            process.kill()
            process.wait()
            status = -signal.SIGXCPU
        out.seek(0)
        err.seek(0)
        return Ended(out.read(), err.read(), status, _EARLY.get(status, "a signal" if status < 0 else ""))


def script(asked: Dict[str, str]) -> str:
    """Returns a script for a shell that makes the same files and the same run by `abnfi` or `pegi`."""
    words = ["pegi" if asked["kind"] == "peg" else "abnfi", "-x"]
    if asked["kind"] == "abnf":
        words += ["-w", *_letters(asked), *(["-z"] if asked["cut"] == "whole" else [])]
    words += ["-s=" + asked["rule"]] if asked["rule"] else []
    lines = {it for part in ("grammar", "input") for it in asked[part].split("\n")}
    end = next(it for it in ("END", *(f"END{at}" for at in range(len(lines) + 1))) if it not in lines)
    grammar = f"grammar.{asked['kind']}"
    crlf = "sed 's/$/\\r/'" if asked["ends"] == "crlf" else ""
    made = _file(grammar, asked["grammar"], "", end) + _file("input.txt", asked["input"], crlf, end)
    return f"{made}{shlex.join([*words, grammar])} < input.txt\n"


def _file(name: str, text: str, change: str, end: str) -> str:
    """Returns the lines of a script that make a file. A text after << ends with a line feed, so one more may be
    cut."""
    whole = text.endswith("\n")
    cut = "" if whole else f" | head -c -{2 if change else 1}"
    last = "" if whole else "\n"
    return f"{change or 'cat'} <<'{end}'{cut} > {name}\n{text}{last}{end}\n"


def _is_text(it: Any) -> bool:
    """Returns whether it is a text that UTF-8 can hold: JSON may have half of a surrogate pair."""
    try:
        return isinstance(it, str) and it.encode() is not None
    except UnicodeEncodeError:
        return False


def is_question(asked: Any, texts: FrozenSet[str] = _ANSWER) -> bool:
    """Returns whether what was sent is a question: exactly these texts, choices of those that there are."""
    return (
        isinstance(asked, dict)
        and set(asked) == texts
        and all(map(_is_text, asked.values()))
        and all(asked[it] in _CHOICES[it] for it in texts & set(_CHOICES))
        and not any("\0" in asked[it] for it in texts & set(_NAMES))
    )


def _refuse(hosts: Set[str], secret: str) -> None:
    """Aborts a request that does not come from the page of this server."""
    request = flask.request
    if request.method not in ("GET", "POST"):
        flask.abort(405)
    # A page of another name that resolves to this machine has another Host
    if request.headers.get("Host") not in hosts:
        flask.abort(403)
    origin = request.headers.get("Origin")
    if origin is not None and origin not in {f"http://{it}" for it in hosts}:
        flask.abort(403)
    if request.headers.get("Sec-Fetch-Site", "none") not in ("same-origin", "none"):
        flask.abort(403)
    if request.method == "POST":
        given = request.headers.get("X-Fanquber-Secret", "")
        if not hmac.compare_digest(given.encode(), secret.encode()):
            flask.abort(403)
        # Another origin cannot send this type without asking first, which is never allowed
        if request.mimetype != "application/json":
            flask.abort(415)


def page_app(port: int, secret: str) -> flask.Flask:
    """Returns the application that answers at a port of 127.0.0.1 whoever has the secret."""
    app = flask.Flask(__name__, static_folder=None)
    app.config["MAX_CONTENT_LENGTH"] = MOST
    hosts = {f"127.0.0.1:{port}", f"localhost:{port}"}
    turns = threading.BoundedSemaphore(AT_ONCE)
    app.before_request(lambda: _refuse(hosts, secret))

    @app.after_request
    def head(reply: flask.Response) -> flask.Response:
        reply.headers.update(_HEADERS)
        return reply

    @app.get("/")
    def page() -> flask.Response:
        return flask.send_file(_HERE / "page.html", mimetype="text/html")

    @app.get("/files/<path:name>")
    def file(name: str) -> flask.Response:
        if name not in _FILES:
            flask.abort(404)
        folder, kind = _FILES[name]
        return flask.send_file(folder / name, mimetype=kind)

    def in_turn(texts: FrozenSet[str], answers: Callable[[Dict[str, str]], Dict[str, Any]]) -> flask.Response:
        asked: Any = flask.request.get_json()
        if not is_question(asked, texts):
            flask.abort(400)
        if not turns.acquire(timeout=WAIT):
            flask.abort(503)
        try:
            return flask.jsonify(answers(asked))
        finally:
            turns.release()

    @app.post("/answer")
    def answered() -> flask.Response:
        return in_turn(_ANSWER, answer)

    @app.post("/samples")
    def listed() -> flask.Response:
        return in_turn(_SAMPLES, samples)

    @app.post("/compare")
    def compared() -> flask.Response:
        return in_turn(_COMPARISON, comparison)

    return app


def serve(port: int, browser: bool) -> int:
    """Serves the page at a port of 127.0.0.1, a free one for 0, until it is interrupted; opens it in a browser if
    asked to. Prints its address. The status is 1 where CodeMirror is missing or the port is taken."""
    if not (_EDITOR / "lib/codemirror.js").is_file():
        print("fanquber: playground needs CodeMirror 5 (Debian: libjs-codemirror)", file=sys.stderr)
        return 1
    secret = secrets.token_urlsafe(24)
    late: List[flask.Flask] = []
    try:
        server = waitress.create_server(
            lambda environ, begin: late[0](environ, begin),
            host="127.0.0.1",
            port=port,
            threads=4,
            max_request_body_size=MOST,
            channel_timeout=30,
            connection_limit=50,
            ident=None,
        )
    except OSError as fault:
        print(f"fanquber: port {port}: {fault.strerror}", file=sys.stderr)
        return 1
    late.append(page_app(server.effective_port, secret))
    address = f"http://127.0.0.1:{server.effective_port}/#{secret}"
    print(address, flush=True)
    if browser:
        webbrowser.open(address)
    try:
        server.run()
    except KeyboardInterrupt:
        pass
    return 0
