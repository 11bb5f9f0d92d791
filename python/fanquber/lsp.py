"""A server for editors of grammars in ABNF (*.abnf) and of peg(1) (*.peg), by the Language Server Protocol 3.17.

It gives what `abnfi -m check -x` and `pegi -m check -x` say, at each change; shows the canonical form of a rule and
how often it is used; goes to definitions and uses; renames; lists and completes rules. JSON-RPC is that of
python-lsp-jsonrpc: `pip install fanquber[lsp]`, or python3-pylsp-jsonrpc of Debian.
"""
import bisect
import sys
from typing import Any, Dict, List, Optional, Tuple

from pylsp_jsonrpc.dispatchers import MethodDispatcher
from pylsp_jsonrpc.endpoint import Endpoint
from pylsp_jsonrpc.streams import JsonRpcStreamReader, JsonRpcStreamWriter

from . import names
from ._grammars import canonical_text, check
from ._library import FanquberError
from .findings import Finding

_SEVERITIES = {"error": 1, "warning": 2}
_UNNECESSARY = 1  # a tag: the editor shows such a rule faded
_PROGRAMS = {"abnf": "abnfi", "peg": "pegi"}


class Text:
    """The text of a file, with its places as the protocol counts them: lines, and units of UTF-16, both from 0."""

    def __init__(self, uri: str, text: str) -> None:
        self.uri, self.text = uri, text
        self.kind = "peg" if uri.lower().endswith((".peg", ".leg")) else "abnf"
        self.starts = [0] + [at + 1 for at, it in enumerate(text) if it == "\n"]

    def place(self, at: int) -> Dict[str, int]:
        line = bisect.bisect_right(self.starts, at) - 1
        return {"line": line, "character": len(self.text[self.starts[line] : at].encode("utf-16-le")) // 2}

    def index(self, place: Dict[str, int]) -> int:
        line = self.line(place["line"]).encode("utf-16-le")[: 2 * place["character"]]
        return self.starts[min(place["line"], len(self.starts) - 1)] + len(line.decode("utf-16-le", "ignore"))

    def line(self, number: int) -> str:
        if number >= len(self.starts):
            return ""
        end = self.starts[number + 1] if number + 1 < len(self.starts) else len(self.text)
        return self.text[self.starts[number] : end]

    def span(self, at: int, length: int) -> Dict[str, Any]:
        return {"start": self.place(at), "end": self.place(at + length)}

    def located(self, it: names.Place) -> Dict[str, Any]:
        return {"uri": self.uri, "range": self.span(it.at, len(it.spelled))}


class Server(MethodDispatcher):  # type: ignore[misc]
    """What answers an editor over two streams."""

    def __init__(self, given: Any, out: Any) -> None:
        self._reader = JsonRpcStreamReader(given)
        self._endpoint = Endpoint(self, JsonRpcStreamWriter(out).write, max_workers=1)
        self._texts: Dict[str, Text] = {}

    def listen(self) -> None:
        self._reader.listen(self._endpoint.consume)

    # The life of the server
    def m_initialize(self, **_: Any) -> Dict[str, Any]:
        return {
            "serverInfo": {"name": "fanquber"},
            "capabilities": {
                "textDocumentSync": 1,  # the whole text at each change
                "hoverProvider": True,
                "definitionProvider": True,
                "referencesProvider": True,
                "documentHighlightProvider": True,
                "documentSymbolProvider": True,
                "renameProvider": {"prepareProvider": True},
                "completionProvider": {},
            },
        }

    def m_initialized(self, **_: Any) -> None:
        pass

    def m_shutdown(self, **_: Any) -> None:
        pass

    def m_exit(self, **_: Any) -> None:
        self._reader.close()

    def m_text_document__did_open(self, textDocument: Dict[str, Any], **_: Any) -> None:
        self._change(textDocument["uri"], textDocument["text"])

    def m_text_document__did_change(self, textDocument: Dict[str, Any], contentChanges: List[Any], **_: Any) -> None:
        self._change(textDocument["uri"], contentChanges[-1]["text"])

    def m_text_document__did_save(self, **_: Any) -> None:
        pass

    def m_text_document__did_close(self, textDocument: Dict[str, Any], **_: Any) -> None:
        self._texts.pop(textDocument["uri"], None)
        self._endpoint.notify("textDocument/publishDiagnostics", {"uri": textDocument["uri"], "diagnostics": []})

    def _change(self, uri: str, text: str) -> None:
        it = self._texts[uri] = Text(uri, text)
        diagnostics = self._diagnostics(it)
        self._endpoint.notify("textDocument/publishDiagnostics", {"uri": uri, "diagnostics": diagnostics})

    # Diagnostics
    def _diagnostics(self, it: Text) -> List[Dict[str, Any]]:
        try:
            return [self._diagnostic(it, found) for found in check(it.kind, it.text)]
        except FanquberError as fault:
            return [{"range": it.span(0, 0), "severity": 1, "source": _PROGRAMS[it.kind], "message": str(fault)}]

    def _diagnostic(self, it: Text, found: Finding) -> Dict[str, Any]:
        last = len(it.starts) - 1
        number = min((found.line or 1) - 1, last)
        related = [
            {
                "location": {"uri": it.uri, "range": it.span(it.starts[min(note.line - 1, last)], 0)},
                "message": note.message,
            }
            for note in found.notes
        ]
        shown: Dict[str, Any] = {
            "range": self._range(it, found, number),
            "severity": _SEVERITIES[found.severity],
            "code": found.code,
            "source": _PROGRAMS[it.kind],
            "message": found.message,
            "relatedInformation": related,
        }
        if found.code == "unused":
            shown["tags"] = [_UNNECESSARY]
        return shown

    @staticmethod
    def _range(it: Text, found: Finding, number: int) -> Dict[str, Any]:
        line, start = it.line(number), it.starts[number]
        stripped = line.rstrip("\r\n")
        if found.column:
            at = len(stripped.encode()[: found.column - 1].decode("utf-8", "ignore"))
            return it.span(start + at, max(len(stripped) - at, 1 if at < len(stripped) else 0))
        key = names.key_of(it.kind, found.rule)
        for place in names.places(it.kind, it.text):
            if place.key == key and start <= place.at < start + len(line):
                return it.span(place.at, len(place.spelled))
        return it.span(start, len(stripped))

    # Names
    def _same(self, textDocument: Dict[str, Any], position: Dict[str, int]) -> Tuple[Text, List[names.Place]]:
        it = self._texts[textDocument["uri"]]
        return it, names.same(it.kind, it.text, it.index(position))

    def m_text_document__definition(self, textDocument: Any, position: Any, **_: Any) -> List[Dict[str, Any]]:
        it, found = self._same(textDocument, position)
        return [it.located(place) for place in found if place.defines]

    def m_text_document__references(
        self, textDocument: Any, position: Any, context: Any, **_: Any
    ) -> List[Dict[str, Any]]:
        it, found = self._same(textDocument, position)
        return [it.located(place) for place in found if context["includeDeclaration"] or not place.defines]

    def m_text_document__document_highlight(self, textDocument: Any, position: Any, **_: Any) -> List[Dict[str, Any]]:
        it, found = self._same(textDocument, position)
        return [{"range": it.span(place.at, len(place.spelled)), "kind": 3 if place.defines else 2} for place in found]

    def m_text_document__prepare_rename(self, textDocument: Any, position: Any, **_: Any) -> Optional[Dict[str, Any]]:
        it, found = self._same(textDocument, position)
        # A core rule has no definition here that could be renamed
        if not any(place.defines for place in found):
            return None
        at = it.index(position)
        here = next(place for place in found if place.at <= at <= place.at + len(place.spelled))
        return {"range": it.span(here.at, len(here.spelled)), "placeholder": here.spelled}

    def m_text_document__rename(
        self, textDocument: Any, position: Any, newName: str, **_: Any
    ) -> Optional[Dict[str, Any]]:
        it, found = self._same(textDocument, position)
        new = list(names.places(it.kind, newName))
        key = names.key_of(it.kind, newName)
        taken = {place.key for place in names.places(it.kind, it.text)} - {place.key for place in found}
        if len(new) != 1 or new[0].spelled != newName or key in taken or not any(place.defines for place in found):
            return None
        if it.kind == "abnf" and newName.upper() in names.CORE:
            return None
        edits = [{"range": it.span(place.at, len(place.spelled)), "newText": newName} for place in found]
        return {"changes": {it.uri: edits}}

    def m_text_document__hover(self, textDocument: Any, position: Any, **_: Any) -> Optional[Dict[str, Any]]:
        it, found = self._same(textDocument, position)
        if not found:
            return None
        key = found[0].key
        shown = self._canonical(it, key) or self._written(it, key)
        if not shown:
            core = it.kind == "abnf" and key.upper() in names.CORE
            shown = f"{found[0].spelled}: " + (
                "a core rule (RFC 5234, appendix B.1)" if core else "no rule has this name"
            )
        uses = sum(not place.defines for place in found)
        count = "once" if uses == 1 else f"{uses} times"
        return {"contents": {"kind": "markdown", "value": f"```{it.kind}\n{shown}\n```\nused {count}"}}

    @staticmethod
    def _canonical(it: Text, key: str) -> str:
        """Returns the canonical text of a rule; empty if there is none, as of a grammar with a fault."""
        try:
            text = canonical_text(it.kind, it.text).decode("latin-1")
        except FanquberError:
            return ""
        arrow = " <- " if it.kind == "peg" else " = "
        lines = (line for line in text.split("\n") if arrow in line)
        return next((line for line in lines if names.key_of(it.kind, line.split(arrow)[0]) == key), "")

    @staticmethod
    def _defined(it: Text) -> List[Tuple[names.Place, int]]:
        """Returns the names that are defined, in order, each with where its definition ends."""
        defined = [place for place in names.places(it.kind, it.text) if place.defines]
        return list(zip(defined, [place.at for place in defined[1:]] + [len(it.text)]))

    def _written(self, it: Text, key: str) -> str:
        """Returns the definitions of a rule as they stand, without the comments after them; empty if there is none."""
        kept: List[str] = []
        for place, end in self._defined(it):
            if place.key == key:
                kept += it.text[place.at : end].splitlines()
                while kept[-1].lstrip()[:1] in ("", ";", "#"):
                    kept.pop()
        return "\n".join(line.rstrip() for line in kept)

    def m_text_document__document_symbol(self, textDocument: Any, **_: Any) -> List[Dict[str, Any]]:
        it = self._texts[textDocument["uri"]]
        return [
            {
                "name": place.spelled,
                "kind": 12,
                "range": it.span(place.at, end - place.at),
                "selectionRange": it.span(place.at, len(place.spelled)),
            }
            for place, end in self._defined(it)
        ]

    def m_text_document__completion(self, textDocument: Any, **_: Any) -> List[Dict[str, Any]]:
        it = self._texts[textDocument["uri"]]
        defined = {place.key: place.spelled for place in names.places(it.kind, it.text) if place.defines}
        core = {name.lower(): name for name in names.CORE} if it.kind == "abnf" else {}
        return [{"label": spelled, "kind": 3} for spelled in {**core, **defined}.values()]


def serve() -> int:
    """Serves on standard input and output until the editor says `exit`."""
    Server(sys.stdin.buffer, sys.stdout.buffer).listen()
    return 0
