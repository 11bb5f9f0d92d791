"""The server for editors: by its protocol, and in neovim."""
import os
import pathlib
import queue
import shutil
import subprocess
import sys
import threading

import pytest

pytest.importorskip("pylsp_jsonrpc", reason="needs python3-pylsp-jsonrpc")

from pylsp_jsonrpc.streams import JsonRpcStreamReader, JsonRpcStreamWriter

CONFIGURATION = pathlib.Path(__file__).resolve().parents[2] / "editors/neovim.lua"
SERVER = [sys.executable, "-m", "fanquber", "lsp"]
HOST = (
    'uri  = "//" Host [ path ]\nHost = 1*( ALPHA / "." ) <a name>\n'
    "port =/ 1*DIGIT ; \u00fc\U0001f600 host\nhost = 1*DIGIT\n"
)


class Client:
    def __init__(self):
        self.process = subprocess.Popen(SERVER, stdin=subprocess.PIPE, stdout=subprocess.PIPE)
        self.writer, self.reported, self.number = JsonRpcStreamWriter(self.process.stdin), queue.Queue(), 0
        reader = JsonRpcStreamReader(self.process.stdout)
        threading.Thread(target=reader.listen, args=(self.reported.put,), daemon=True).start()

    def ask(self, method, **params):
        self.number += 1
        self.writer.write({"jsonrpc": "2.0", "id": self.number, "method": method, "params": params})
        while True:
            it = self.reported.get(timeout=60)
            if it.get("id") == self.number:
                assert "error" not in it, it
                return it["result"]

    def tell(self, method, **params):
        self.writer.write({"jsonrpc": "2.0", "method": method, "params": params})

    def diagnostics(self):
        while True:
            it = self.reported.get(timeout=60)
            if it.get("method") == "textDocument/publishDiagnostics":
                return it["params"]["diagnostics"]


@pytest.fixture
def client():
    it = Client()
    it.ask("initialize", processId=None, rootUri=None, capabilities={})
    it.tell("initialized")
    yield it
    it.ask("shutdown")
    it.tell("exit")
    assert it.process.wait(60) == 0


def opened(client, text, name="file:///host.abnf"):
    client.tell("textDocument/didOpen", textDocument={"uri": name, "languageId": "abnf", "version": 1, "text": text})
    return client.diagnostics()


def short(it):
    at = it["range"]
    return (at["start"]["line"], at["start"]["character"], at["end"]["character"], it["severity"], it["code"])


def test_notes(client):
    reported = opened(client, HOST)
    assert [short(it) for it in reported] == [
        (1, 0, 4, 1, "redefined"),
        (2, 0, 4, 2, "extended"),
        (0, 19, 23, 1, "undefined"),
        (1, 0, 4, 1, "prose"),
        (2, 0, 4, 2, "unused"),
    ]
    assert reported[2]["message"] == "rule 'path' used but not defined, reached by 'uri' > 'path'"
    assert [it["location"]["range"]["start"]["line"] for it in reported[0]["relatedInformation"]] == [1, 3]


def test_faults_count_units_of_utf16(client):
    reported = opened(client, 'a = "x" ; \u00fc\U0001f600\nb = \U0001f600\n')
    assert [short(it) for it in reported] == [(1, 4, 6, 1, "syntax")]


def test_changes(client):
    assert opened(client, "a = b\n")
    client.tell(
        "textDocument/didChange",
        textDocument={"uri": "file:///host.abnf", "version": 2},
        contentChanges=[{"text": 'a = "b"\n'}],
    )
    assert client.diagnostics() == []


def test_names(client):
    opened(client, HOST)
    at = {"textDocument": {"uri": "file:///host.abnf"}, "position": {"line": 0, "character": 13}}
    places = lambda found: [(it["range"]["start"]["line"], it["range"]["start"]["character"]) for it in found]
    assert places(client.ask("textDocument/definition", **at)) == [(1, 0), (3, 0)]
    assert places(client.ask("textDocument/references", context={"includeDeclaration": True}, **at)) == [
        (0, 12),
        (1, 0),
        (3, 0),
    ]
    edits = client.ask("textDocument/rename", newName="name", **at)["changes"]["file:///host.abnf"]
    assert places(edits) == [(0, 12), (1, 0), (3, 0)]
    assert client.ask("textDocument/rename", newName="uri", **at) is None
    assert client.ask("textDocument/rename", newName="my_name", **at) is None
    assert client.ask("textDocument/rename", newName="ALPHA", **at) is None
    symbols = client.ask("textDocument/documentSymbol", textDocument=at["textDocument"])
    assert [it["name"] for it in symbols] == ["uri", "Host", "port", "host"]
    labels = [it["label"] for it in client.ask("textDocument/completion", **at)]
    assert {"uri", "host", "ALPHA"} <= set(labels) and "Host" not in labels


def test_hover(client):
    opened(client, "a = ( b ) / %d65\nb = *( DIGIT )\n")
    at = {"textDocument": {"uri": "file:///host.abnf"}, "position": {"line": 0, "character": 6}}
    assert client.ask("textDocument/hover", **at)["contents"]["value"] == "```abnf\nb = *DIGIT\n```\nused once"
    at["position"] = {"line": 1, "character": 8}
    assert "core rule" in client.ask("textDocument/hover", **at)["contents"]["value"]


def test_hover_in_a_grammar_with_a_fault(client):
    """A grammar that cannot be printed, as while it is typed, shows its rules as they stand."""
    opened(client, HOST + "; of the end\n")
    at = {"textDocument": {"uri": "file:///host.abnf"}, "position": {"line": 0, "character": 13}}
    reported = client.ask("textDocument/hover", **at)["contents"]["value"]
    assert reported == '```abnf\nHost = 1*( ALPHA / "." ) <a name>\nhost = 1*DIGIT\n```\nused once'
    at["position"] = {"line": 0, "character": 20}
    assert "no rule has this name" in client.ask("textDocument/hover", **at)["contents"]["value"]
    opened(client, "S <- ( A 'x'\nA <- 'y'\n  'z'\n# no more\n\n# B\nB <- .\n", "file:///s.peg")
    at = {"textDocument": {"uri": "file:///s.peg"}, "position": {"line": 0, "character": 7}}
    reported = client.ask("textDocument/hover", **at)["contents"]["value"]
    assert reported == "```peg\nA <- 'y'\n  'z'\n```\nused once"


def test_peg(client):
    reported = opened(client, "S <- A 'x'\nA <- S / 'y' { S }\n", "file:///s.peg")
    assert [it["code"] for it in reported] == ["left-recursion", "left-recursion"]
    at = {"textDocument": {"uri": "file:///s.peg"}, "position": {"line": 1, "character": 5}}
    found = client.ask("textDocument/references", context={"includeDeclaration": True}, **at)
    assert [it["range"]["start"] for it in found] == [{"line": 0, "character": 0}, {"line": 1, "character": 5}]


@pytest.mark.skipif(not shutil.which("nvim") or not CONFIGURATION.is_file(), reason="needs neovim and the repository")
def test_in_neovim(tmp_path):
    (tmp_path / "host.abnf").write_text('uri  = "//" name [ path ]\nname = 1*ALPHA\n')
    command = tmp_path / "fanquber"
    command.write_text(f'#!/bin/sh\nexec {sys.executable} -m fanquber "$@"\n')
    command.chmod(0o755)
    script = tmp_path / "try.lua"
    script.write_text(
        f"""
        local out = io.open("{tmp_path}/said", "w")
        vim.wait(100000, function() return #vim.diagnostic.get(0) > 0 end, 50)
        for _, it in ipairs(vim.diagnostic.get(0)) do
            out:write(it.lnum .. ":" .. it.col .. " " .. it.message .. "\\n")
        end
        vim.api.nvim_win_set_cursor(0, {{ 1, 13 }})
        vim.lsp.buf.definition()
        vim.wait(10000, function() return vim.api.nvim_win_get_cursor(0)[1] ~= 1 end, 50)
        out:write("definition on line " .. vim.api.nvim_win_get_cursor(0)[1] .. "\\n")
        out:close()
        vim.cmd("qa!")
    """
    )
    words = ["nvim", "--headless", "--clean", "--cmd", f"source {CONFIGURATION}", "-S", script, tmp_path / "host.abnf"]
    environment = {**os.environ, "HOME": str(tmp_path), "PATH": f"{tmp_path}:{os.environ['PATH']}"}
    subprocess.run(list(map(str, words)), timeout=120, env=environment, capture_output=True)
    said = (tmp_path / "said").read_text().splitlines()
    assert said[-1] == "definition on line 2"
    assert "0:19 rule 'path' used but not defined, reached by 'uri' > 'path'" in said
