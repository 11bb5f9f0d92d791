"""Railroad diagrams of a grammar: one page of HTML, or an SVG for each rule, drawn by railroad-diagrams.

It needs that package: `pip install fanquber[diagrams]`, or python3-railroad-diagrams of Debian.
"""
import html
import io
import pathlib
from typing import Any, Dict, List, Optional

import railroad as rr

from .names import CORE, key_of
from .trees import Tree, names_in

_WIDEST = 900.0  # pixels of a row of a concatenation, which goes on below beyond that
_LETTERS = 4  # single letters that stand as branches; more share a box
_STYLE = (pathlib.Path(__file__).parent / "data" / "diagrams.css").read_text()


def _shown(value: int) -> str:
    """Returns how a number of ABNF is shown: one that can be seen as its letter in quotes."""
    return f'"{chr(value)}"' if 0x21 <= value <= 0x7E and value != 0x22 else f"%x{value:02X}"


def _printable(text: str) -> str:
    """Returns a text in printable ASCII: it has no bytes that XML cannot hold or a reader cannot see."""
    return "".join(it if " " <= it <= "~" else f"\\x{ord(it):02X}" for it in text)


class Drawer:
    """Draws the expressions of one grammar of a kind, `abnf` or `peg`."""

    def __init__(self, kind: str, rules: Dict[str, Tree]) -> None:
        self.kind = kind
        self.places = {key_of(kind, name): at for at, name in enumerate(rules)}

    def draw(self, e: Tree) -> Any:
        """Returns the drawing of an expression. `RecursionError` if it is deeper than Python can go."""
        return getattr(self, "draw_" + e[0])(*e[1:])

    def draw_name(self, name: str) -> Any:
        at = self.places.get(key_of(self.kind, name))
        if at is not None:
            return rr.NonTerminal(name, href=f"#rule-{at}")
        return rr.NonTerminal(name, cls="core" if self.kind == "abnf" and name.upper() in CORE else "missing")

    def draw_or(self, *parts: Tree) -> Any:
        letters = [it[1] for it in parts if it[0] in ("text", "bytes") and len(it[1]) == 1]
        if len(letters) == len(parts) > _LETTERS:
            return rr.Terminal("one of " + " ".join(letters))
        return rr.Choice(0, *map(self.draw, parts))

    def draw_cat(self, *parts: Tree) -> Any:
        if not parts:
            return rr.Skip()
        items = self.joined(list(parts))
        rows: List[List[Any]] = [[]]
        for item in items:
            if rows[-1] and sum(it.width + 20 for it in rows[-1]) + item.width > _WIDEST:
                rows.append([])
            rows[-1].append(item)
        drawn = [rr.Sequence(*row) for row in rows]
        return rr.Stack(*drawn) if len(drawn) > 1 else drawn[0]

    def joined(self, parts: List[Tree]) -> List[Any]:
        """Draws `e *(s e)` as one loop through s, as lists are read. The way back is read from right to left, so one
        part alone may stand there."""
        items: List[Any] = []
        for at, it in enumerate(parts):
            loop = self.loop_of(it)
            if at and loop and loop[0] == "cat" and len(loop) == 3 and loop[2] == parts[at - 1]:
                items[-1] = rr.OneOrMore(items[-1], self.draw(loop[1]))
            else:
                items.append(self.draw(it))
        return items

    @staticmethod
    def loop_of(e: Tree) -> Optional[Tree]:
        """Returns what an expression repeats any number of times, if that is what it does."""
        if e[0] == "star" or e[:3] == ("rep", 0, None):
            inner: Tree = e[-1]
            return inner
        return None

    def draw_opt(self, e: Tree) -> Any:
        return rr.Optional(self.draw(e))

    # ABNF
    def draw_rep(self, least: int, most: Optional[int], e: Tree) -> Any:
        item = self.draw(e)
        if most == 0:
            return rr.Comment("nothing")
        if most is None and least == 0:
            return rr.ZeroOrMore(item)
        if most is None:
            return rr.OneOrMore(item, None if least == 1 else rr.Comment(f"{least} times or more"))
        if least == most:
            return item if most == 1 else rr.OneOrMore(item, rr.Comment(f"{most} times"))
        if least == 0:
            return rr.Optional(item if most == 1 else rr.OneOrMore(item, rr.Comment(f"at most {most} times")))
        return rr.OneOrMore(item, rr.Comment(f"{least} to {most} times"))

    def draw_text(self, text: str) -> Any:
        return rr.Terminal(_printable(f'"{text}"')) if text else rr.Skip()

    def draw_exact(self, text: str) -> Any:
        return rr.Terminal(f'%s"{text}"') if text else rr.Skip()

    def draw_range(self, first: int, last: int) -> Any:
        return rr.Terminal(f"{_shown(first)} .. {_shown(last)}")

    def draw_values(self, *values: int) -> Any:
        if all(0x21 <= it <= 0x7E and it != 0x22 for it in values):
            return rr.Terminal('%s"' + "".join(map(chr, values)) + '"')
        return rr.Terminal("%x" + ".".join(f"{it:02X}" for it in values))

    def draw_prose(self, text: str) -> Any:
        return rr.Comment(_printable(f"<{text}>"))

    # peg(1)
    def draw_star(self, e: Tree) -> Any:
        return rr.ZeroOrMore(self.draw(e))

    def draw_plus(self, e: Tree) -> Any:
        return rr.OneOrMore(self.draw(e))

    def draw_and(self, e: Tree) -> Any:
        return rr.Group(self.draw(e), "followed by")

    def draw_not(self, e: Tree) -> Any:
        return rr.Terminal("end of input") if e == ("any",) else rr.Group(self.draw(e), "not followed by")

    def draw_bytes(self, text: str) -> Any:
        return rr.Terminal(_printable(f'"{text}"')) if text else rr.Skip()

    def draw_set(self, text: str) -> Any:
        return rr.Terminal(_printable(f"[{text}]"))

    def draw_any(self) -> Any:
        return rr.Terminal("any byte")

    def draw_act(self, template: str) -> Any:
        short = _printable(" ".join(template.split()))
        return rr.Comment("{" + (short if len(short) <= 24 else short[:22] + "..") + "}")

    def draw_open(self) -> Any:
        return rr.Comment("<")

    def draw_close(self) -> Any:
        return rr.Comment(">")


def svgs(kind: str, rules: Dict[str, Tree]) -> Dict[str, str]:
    """Returns the diagram of each rule by name: an element `svg` without a style of its own. A rule that is too deep
    for Python has a box that says so."""
    drawer, drawn = Drawer(kind, rules), {}
    for name, body in rules.items():
        try:
            drawn[name] = _svg(kind, drawer.draw(body))
        except RecursionError:
            drawn[name] = _svg(kind, rr.Comment("too deep to be drawn"))
    return drawn


def _svg(kind: str, item: Any) -> str:
    text = io.StringIO()
    rr.Diagram(item, type="complex" if kind == "peg" else "simple", css=None).writeSvg(text.write)
    return text.getvalue()


def page(kind: str, title: str, canonical: bytes, rules: Dict[str, Tree]) -> str:
    """Returns a page of HTML with a section for each rule: its diagram, its canonical text if each rule has one line,
    and the rules that use it. The page needs no script and no other file."""
    users: Dict[str, List[str]] = {}
    for user, body in rules.items():
        for name in dict.fromkeys(key_of(kind, it) for it in names_in(body)):
            users.setdefault(name, []).append(user)
    links = {name: f'<a href="#rule-{at}">{html.escape(name)}</a>' for at, name in enumerate(rules)}
    texts = canonical.decode("latin-1").split("\n")[:-1]
    # An action of peg(1) may hold line feeds
    lines = dict(zip(rules, texts)) if len(texts) == len(rules) else {}
    sections = []
    for at, (name, drawn) in enumerate(svgs(kind, rules).items()):
        by = ", ".join(links[it] for it in users.get(key_of(kind, name), []))
        shown = f"<pre>{html.escape(lines[name])}</pre>" if name in lines else ""
        used = f"<p>used by {by}</p>" if by else ""
        head = f'<section id="rule-{at}"><h2>{html.escape(name)}</h2>'
        sections.append(f'{head}<div tabindex="0">{drawn}</div>{shown}{used}</section>')
    return (
        f'<!DOCTYPE html>\n<html lang="en"><meta charset="utf-8"><meta name="viewport" content="width=device-width">'
        f"<title>{html.escape(title)}</title>\n<style>{_STYLE}</style>\n<h1>{html.escape(title)}</h1>\n"
        + "\n".join(sections)
        + "\n</html>\n"
    )
