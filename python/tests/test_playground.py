"""The playground's server: what it refuses, its limits, and its scripts."""
import http.client
import json
import os
import pathlib
import shutil
import socket
import subprocess
import sys
import threading
import time

import pytest

for module, package in (("flask", "flask"), ("waitress", "waitress"), ("railroad", "railroad-diagrams")):
    pytest.importorskip(module, reason=f"needs python3-{package}")

from fanquber import playground

BIN = pathlib.Path(__file__).resolve().parents[2] / "bin"
DENSE = 's = s s / s s s / "a" / "a" s "a"\n'
QUESTION = {
    "kind": "abnf",
    "grammar": 'a = "x"\n',
    "input": "x\n",
    "rule": "",
    "letters": "bytes",
    "cut": "lines",
    "ends": "lf",
}


SAMPLES = {"grammar": 'a = 1*2"x"\n', "rule": "", "letters": "bytes", "cut": "lines", "count": "20", "length": "16"}
COMPARISON = {"old": 'a = "x"\n', "old_rule": "", "grammar": 'a = *"x"\n', "rule": "", "letters": "bytes"}


def ask(server, method="POST", path="/answer", body=None, **changed):
    host, secret = server.removeprefix("http://").split("/#")
    headers = {"Host": host, "Content-Type": "application/json", "X-Fanquber-Secret": secret}
    for name, value in changed.items():
        headers[name.replace("_", "-")] = value
    headers = {name: value for name, value in headers.items() if value is not None}
    it = http.client.HTTPConnection(host, timeout=20)
    it.putrequest(method, path, skip_host=True)
    data = (json.dumps(QUESTION) if body is None else body).encode() if method == "POST" else b""
    for name, value in {**headers, "Content-Length": str(len(data))}.items():
        it.putheader(name, value)
    it.endheaders(data)
    reply = it.getresponse()
    return reply.status, reply.read()


@pytest.mark.parametrize(
    "wanted, changed",
    [
        (200, {}),
        (200, {"Origin": "own"}),
        (403, {"Origin": "http://evil.example"}),
        (403, {"Origin": "null"}),
        (403, {"Host": "evil.example"}),
        (403, {"Host": "evil.example:80"}),
        (403, {"Sec_Fetch_Site": "cross-site"}),
        (403, {"Sec_Fetch_Site": "same-site"}),
        (403, {"X_Fanquber_Secret": None}),
        (403, {"X_Fanquber_Secret": "guess"}),
        (403, {"X_Fanquber_Secret": "\xff"}),
        (415, {"Content_Type": "text/plain"}),
        (415, {"Content_Type": None}),
        (400, {"body": "{"}),
        (400, {"body": "[]"}),
        (400, {"body": json.dumps({**QUESTION, "more": ""})}),
        (400, {"body": json.dumps({**QUESTION, "rule": 1})}),
        (400, {"body": json.dumps({**QUESTION, "kind": "sh"})}),
        (400, {"body": json.dumps({**QUESTION, "rule": "a\0b"})}),
        (200, {"body": json.dumps({**QUESTION, "rule": "-h"})}),
        (200, {"body": json.dumps({**QUESTION, "rule": "'; rm -rf /"})}),
        (413, {"body": json.dumps({**QUESTION, "input": "x" * 300000})}),
        (405, {"method": "GET"}),
        (405, {"method": "OPTIONS"}),
        (404, {"method": "GET", "path": "/files/../__init__.py"}),
        (404, {"method": "GET", "path": "/files/%2e%2e/__init__.py"}),
        (404, {"method": "GET", "path": "/files/page.html"}),
        (308, {"method": "GET", "path": "/files//etc/passwd"}),
        (200, {"method": "GET", "path": "/"}),
    ],
)
def test_what_the_server_refuses(server, wanted, changed):
    if changed.get("Origin") == "own":
        changed = {"Origin": server.split("/#")[0]}
    assert ask(server, **changed)[0] == wanted


@pytest.mark.parametrize(
    "wanted, changed",
    [
        (200, {}),
        (400, {"more": ""}),
        (400, {"grammar": None}),
        (400, {"grammar": "\ud800"}),
        (400, {"rule": "a\0b"}),
        (200, {"rule": "-h"}),
        (200, {"rule": "'; rm -rf /"}),
        (400, {"letters": "latin1"}),
        (413, {"grammar": "x" * 300000}),
    ],
)
@pytest.mark.parametrize("path, question", [("/samples", SAMPLES), ("/compare", COMPARISON)])
def test_what_the_panes_refuse(server, path, question, wanted, changed):
    assert ask(server, path=path, body=json.dumps({**question, **changed}))[0] == wanted


@pytest.mark.parametrize(
    "path, changed",
    [
        ("/samples", {**SAMPLES, "count": "4294967295"}),
        ("/samples", {**SAMPLES, "length": "16777216"}),
        ("/samples", {**SAMPLES, "count": 20}),
        ("/samples", COMPARISON),
        ("/compare", {**COMPARISON, "old_rule": "\0"}),
        ("/compare", SAMPLES),
        ("/answer", SAMPLES),
    ],
)
def test_each_pane_has_its_question(server, path, changed):
    assert ask(server, path=path, body=json.dumps(changed))[0] == 400


@pytest.mark.parametrize("path, question", [("/samples", SAMPLES), ("/compare", COMPARISON)])
def test_the_panes_ask_for_the_secret(server, path, question):
    body = json.dumps(question)
    assert ask(server, path=path, body=body, X_Fanquber_Secret="guess")[0] == 403
    assert ask(server, path=path, body=body, Origin="http://evil.example")[0] == 403
    assert ask(server, path=path, body=body, Content_Type="text/plain")[0] == 415
    assert ask(server, path=path, method="GET")[0] == 405


class Slow:
    """Answers that take until `end` is set. Counts those that run at once, and the most that did."""

    def __init__(self, monkeypatch):
        self.end, self.lock, self.running, self.most = threading.Event(), threading.Lock(), 0, 0
        self.client = playground.page_app(80, "secret").test_client
        self.threads, self.statuses = [], []
        monkeypatch.setattr(playground, "answer", self.answer)

    def answer(self, asked):
        with self.lock:
            self.running += 1
            self.most = max(self.most, self.running)
        self.end.wait(20)
        with self.lock:
            self.running -= 1
        return {}

    def ask(self, count):
        """Asks so many questions, each on a thread of its own."""
        heads = {"Host": "127.0.0.1:80", "X-Fanquber-Secret": "secret"}
        post = lambda: self.statuses.append(self.client().post("/answer", json=QUESTION, headers=heads).status_code)
        self.threads += [threading.Thread(target=post) for _ in range(count)]
        for it in self.threads[-count:]:
            it.start()

    def wait_for(self, holds):
        until = time.monotonic() + 20
        while not holds() and time.monotonic() < until:
            time.sleep(0.01)
        assert holds()

    def join(self):
        self.end.set()
        for it in self.threads:
            it.join(20)


def test_two_run_at_a_time_and_more_wait(monkeypatch):
    slow = Slow(monkeypatch)
    slow.ask(5)
    slow.wait_for(lambda: slow.running == 2)
    time.sleep(0.3)
    assert (slow.running, slow.statuses) == (2, [])
    slow.join()
    assert (slow.most, slow.statuses) == (2, [200] * 5)


def test_the_panes_wait_too(monkeypatch):
    monkeypatch.setattr(playground, "WAIT", 0.1)
    slow = Slow(monkeypatch)
    slow.ask(2)
    slow.wait_for(lambda: slow.running == 2)
    heads = {"Host": "127.0.0.1:80", "X-Fanquber-Secret": "secret"}
    for path, question in (("/samples", SAMPLES), ("/compare", COMPARISON)):
        assert slow.client().post(path, json=question, headers=heads).status_code == 503
    slow.join()


def test_who_waits_too_long_is_told_so(monkeypatch):
    monkeypatch.setattr(playground, "WAIT", 0.1)
    slow = Slow(monkeypatch)
    slow.ask(2)
    slow.wait_for(lambda: slow.running == 2)
    slow.ask(1)
    slow.wait_for(lambda: slow.statuses == [503])
    slow.join()
    assert (slow.most, sorted(slow.statuses)) == (2, [200, 200, 503])


def test_heads_of_answers(server):
    it = http.client.HTTPConnection(server.removeprefix("http://").split("/#")[0], timeout=20)
    for path in ("/", "/files/page.js", "/files/none"):
        it.request("GET", path)
        reply = it.getresponse()
        reply.read()
        assert reply.getheader("Content-Security-Policy").startswith(
            "default-src 'none'; script-src 'self'; style-src 'self'"
        )
        assert reply.getheader("X-Content-Type-Options") == "nosniff"
        assert reply.getheader("Cross-Origin-Resource-Policy") == "same-origin"
        assert reply.getheader("Cache-Control") == "no-store"
        assert not any(name.lower().startswith("access-control") for name, _ in reply.getheaders())


def test_it_listens_on_loopback_alone(server):
    port = int(server.split(":")[2].split("/")[0])
    socket.create_connection(("127.0.0.1", port), 2).close()
    for family, address in ((socket.AF_INET, "127.0.0.2"), (socket.AF_INET6, "::1")):
        with socket.socket(family) as it, pytest.raises(OSError):
            it.settimeout(2)
            it.connect((address, port))


def test_what_it_lacks_is_said_in_one_line(tmp_path):
    words = [sys.executable, "-m", "fanquber", "playground", "--no-browser"]
    environment = {**os.environ, "FANQUBER_CODEMIRROR": str(tmp_path)}
    ran = subprocess.run(words, env=environment, capture_output=True, text=True)
    wanted = "fanquber: playground needs CodeMirror 5 (Debian: libjs-codemirror)\n"
    assert (ran.returncode, ran.stdout, ran.stderr) == (1, "", wanted)


def answered(limits=playground.Limits(), **changed):
    return playground.answer({**QUESTION, **changed}, limits)


def test_an_answer():
    reported = answered(grammar='a = "x"\nb = a\n', input="x\ny\n")
    assert (reported["out"], reported["status"], reported["broken_by"]) == ("yes\nno 0\n", 1, "")
    assert (reported["rules"], reported["canonical"]) == (["a", "b"], 'a = "x"\nb = a\n')
    assert [it["code"] for it in reported["findings"]] == ["unused"]
    assert [(it["line"], it["column"]) for it in reported["stops"]] == [(2, 1)]
    assert [name for name, _ in reported["diagrams"]] == ["a", "b"]


def test_time_is_bounded():
    lines = "a" * 20000 + "b\n"
    for processor, clock in ((1, 60.0), (60, 0.7)):
        limits = playground.Limits(processor=processor, clock=clock, memory=1 << 33)
        reported = answered(limits, grammar=DENSE, input=lines)
        assert (reported["broken_by"], reported["status"], reported["rules"]) == ("time", None, ["s"])
        assert reported["milliseconds"] < 30000


def test_memory_is_bounded():
    # The output has 60 MB
    grammar = "S <- . { " + "x" * 1000 + " }\n"
    reported = answered(playground.Limits(memory=80 << 20), kind="peg", grammar=grammar, input="a" * 60000)
    assert (reported["status"], reported["broken_by"], reported["rules"]) == (5, "", ["S"])


def test_output_is_bounded():
    reported = answered(
        playground.Limits(output=5000), kind="peg", grammar="S <- . { " + "x" * 100 + " }\n", input="a" * 1000
    )
    assert (len(reported["out"]), reported["broken_by"]) == (5000, "output")


def test_the_environment_is_empty(monkeypatch):
    seen = {}
    run = subprocess.Popen

    def opened(words, **how):
        seen.update(how)
        return run(words, **how)

    monkeypatch.setattr(playground.subprocess, "Popen", opened)
    answered()
    assert (seen["env"], seen["cwd"], seen.get("shell", False)) == ({}, "/", False)


def test_names_are_no_options():
    assert [it["code"] for it in answered(rule="-h")["findings"]] == ["undefined", "unused"]


@pytest.mark.skipif(not (BIN / "abnfi").is_file() or not shutil.which("sh"), reason="needs the programs in bin/")
@pytest.mark.parametrize("ends", ["lf", "crlf"])
@pytest.mark.parametrize("given", ["x'\n", "x'", "", "\n", "x'\nx'", "END\n$HOME `id` \\\n"])
@pytest.mark.parametrize(
    "changed",
    [{}, {"cut": "whole", "letters": "utf8"}, {"rule": "end"}, {"kind": "peg", "grammar": "S <- . { it's yytext }"}],
)
def test_the_script_makes_the_same_run(changed, given, ends, tmp_path):
    reported = answered(**{"grammar": 'a = *( "x\'" CRLF )\nEND = "y"\n', "input": given, "ends": ends, **changed})
    environment = {"PATH": f"{BIN}:{os.environ['PATH']}"}
    ran = subprocess.run(["sh", "-c", reported["command"]], cwd=tmp_path, capture_output=True, env=environment)
    assert (ran.stdout, ran.returncode) == (reported["out"].encode("latin-1"), reported["status"])


def listed(limits=playground.Limits(), **changed):
    return playground.samples({**SAMPLES, **changed}, limits)


def compared(limits=playground.Limits(), **changed):
    return playground.comparison({**COMPARISON, **changed}, limits)


def test_what_the_programs_get(stand_in):
    stand_in("abnfg", "for it; do echo \"$it\"; done; cat \"$it\"")
    *words, file, text = listed(rule="-h", letters="utf8")["lines"]
    assert words == ["-c", "20", "-l", "16", "-u", "utf8", "-s=-h"]
    assert (file.startswith("/proc/self/fd/"), text) == (True, 'a = 1*2"x"')
    stand_in("abnfg", "printf '%s\\0' \"$@\"")
    assert listed(cut="whole")["lines"][:3] == ["-z", "-c", "20"]
    assert listed()["command"] == "abnfg -c 20 -l 16 grammar.abnf"
    stand_in("abnfd", "printf 'differ\\n< \"%s\"\\n> none\\n' \"$*\"")
    for changed, options in (
        ({}, []),
        ({"rule": "a"}, ["-s=a"]),
        ({"old_rule": "b", "rule": "a"}, ["-s=b", "-t=a"]),
        ({"old_rule": "b"}, ["-s=b", "-t=a"]),
    ):
        assert compared(**changed)["command"] == " ".join(["abnfd", *options, "old.abnf", "new.abnf"])
        words = compared(**changed)["alone"][0][1].split(" ")
        assert words[:-2] == options


def test_the_programs_run_within_limits(stand_in):
    """A shell shows its limits, in KiB, seconds and blocks of 512 bytes, and its environment."""
    stand_in("abnfg", "ulimit -v; ulimit -t; ulimit -f; ulimit -n; ulimit -c; pwd; /usr/bin/env")
    limits = playground.Limits(memory=64 << 20, processor=3, output=8192)
    memory, seconds, blocks, files, core, folder, *environment = listed(limits)["lines"]
    assert (memory, seconds, blocks, files, core, folder) == (str(64 << 10), "3", "16", "16", "0", "/")
    assert {it.partition("=")[0] for it in environment} <= {"PWD", "SHLVL", "_"}


@pytest.mark.parametrize("script", ["while :; do :; done", "exec sleep 60"])
def test_time_of_the_programs_is_bounded(stand_in, script):
    limits = playground.Limits(processor=1, clock=2.5)
    stand_in("abnfg", f"echo x; printf y; {script}")
    reported = listed(limits)
    assert (reported["lines"], reported["broken_by"], reported["status"]) == (["x"], "time", None)
    assert reported["milliseconds"] < 20000
    stand_in("abnfd", script)
    reported = compared(limits)
    assert (reported["answer"], reported["broken_by"]) == ("", "time")


def test_output_of_the_programs_is_bounded(stand_in):
    stand_in("abnfg", "exec yes xyz")
    reported = listed(playground.Limits(output=8001))
    assert (reported["lines"], reported["broken_by"]) == (["xyz"] * 2000, "output")
    stand_in("abnfg", "yes note >&2")
    assert listed(playground.Limits(output=8001))["lines"] == []


def test_faults_of_the_programs(stand_in, tmp_path, monkeypatch):
    stand_in("abnfg", "kill -9 $$")
    assert listed()["broken_by"] == "a signal"
    stand_in("abnfg", "exit 6")
    assert listed()["broken_by"] == "a fault"
    stand_in("abnfg", "echo x; echo y >&2; exit 3")
    reported = listed()
    assert (reported["lines"], reported["messages"], reported["status"]) == (["x"], ["y"], 3)
    (tmp_path / "abnfg").write_bytes(b"\0")  # what no kernel runs
    assert listed()["broken_by"] == "a fault"
    monkeypatch.setattr("fanquber._programs.loaded_path", lambda: "")
    monkeypatch.setenv("PATH", "")
    (tmp_path / "abnfg").unlink()
    assert (listed()["missing"], compared()["missing"]) == ("abnfg", "abnfd")


@pytest.mark.usefixtures("programs")
def test_samples():
    reported = listed()
    assert (reported["lines"], reported["status"], reported["broken_by"]) == (["X", "x", "XX", "Xx", "xX", "xx"], 0, "")
    assert listed(grammar="a = LF", cut="whole")["lines"] == ["\n"]
    assert listed(grammar="a = %xE9", letters="utf8")["lines"] == ["\xc3\xa9"]
    assert (listed(grammar="a = LF")["status"], listed(grammar='a = a "b" / "c"')["status"]) == (1, 3)
    reported = listed(grammar="a = b")
    assert (reported["status"], reported["messages"]) == (2, ["rule 'b' used but not defined"])
    assert len(listed(grammar="a = *OCTET", count="1000", length="256")["lines"]) == 1000


@pytest.mark.usefixtures("programs")
def test_comparison():
    reported = compared()
    assert (reported["answer"], reported["status"], reported["broken_by"]) == ("differ", 1, "")
    assert reported["alone"] == [["none", None], ['""', ""]]
    assert compared(old='a = *"x"')["answer"] == "same"
    assert compared(old='b = "y"\nc = *"X"\n', old_rule="C")["answer"] == "same"
    assert compared(old="a = %xE9", letters="utf8")["alone"][0] == ['"\\xC3\\xA9"', "\xc3\xa9"]
    reported = compared(old="a = b", grammar="a = *2[DIGIT]")
    assert (reported["status"], reported["messages"]) == (2, ["old: rule 'b' used but not defined"])
    assert (reported["answer"], reported["alone"]) == ("", [])


@pytest.mark.usefixtures("programs")
def test_memory_of_the_programs_is_bounded():
    old = 'v = "x" / a / b\na = *" " "[" *v "]" *" "\nb = *" " "{" *v "}" *" "\n'
    new = 'v = "x" / *" " a *" " / *" " b *" "\na = "[" *v "]"\nb = "{" *v "}"\n'
    changed = {"old": old, "grammar": new}
    assert compared(playground.Limits(memory=32 << 20), **changed)["status"] == 5
    assert compared(playground.Limits(processor=60, clock=100.0), **changed)["answer"] == "not known"


@pytest.mark.skipif(not shutil.which("sh"), reason="needs sh")
@pytest.mark.usefixtures("programs")
@pytest.mark.parametrize("rule", ["", "b"])
def test_the_commands_of_the_panes_make_the_same_runs(rule, tmp_path):
    text = 'a = 2"x"\nb = "y" a CRLF\n'
    (tmp_path / "grammar.abnf").write_text(text)
    (tmp_path / "new.abnf").write_text(text)
    (tmp_path / "old.abnf").write_text('b = "y"\n')
    environment = {"PATH": f"{BIN}:{os.environ['PATH']}"}
    run = lambda it: subprocess.run(["sh", "-c", it], cwd=tmp_path, capture_output=True, env=environment)
    reported = listed(grammar=text, rule=rule, cut="whole")
    ran = run(reported["command"])
    assert ran.stdout.decode("latin-1").split("\0")[:-1] == reported["lines"] != []
    reported = compared(old='b = "y"\n', grammar=text, rule=rule, old_rule="b")
    ran = run(reported["command"])
    assert ran.stdout.decode().split("\n")[0] == reported["answer"] == "differ"
