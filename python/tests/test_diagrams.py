"""A diagram shows what its rule derives: it is read back as ABNF, and the same lines are judged by both."""
import itertools
import pathlib
import random
import subprocess
import sys
import xml.etree.ElementTree as xml

import pytest

pytest.importorskip("railroad", reason="needs python3-railroad-diagrams")

from fanquber import Letters, abnf, names, trees
from fanquber import diagrams
from fanquber._grammars import canonical_text

from undraw import undrawn

EXAMPLES = pathlib.Path(__file__).resolve().parents[2] / "examples"
SHORT = b"".join("".join(it).encode() + b"\n" for size in range(6) for it in itertools.product("ab", repeat=size))


def rules_of(kind, text):
    return trees.read_rules(kind, canonical_text(kind, text))


def drawn_back(rules):
    drawer = diagrams.Drawer("abnf", rules)
    return "".join(f"{name} = {undrawn(drawer.draw(body))}\n" for name, body in rules.items()).encode()


def same(text, rule, lines, letters=Letters.BYTES):
    back = drawn_back(rules_of("abnf", text))
    one, other = (abnf(it, lines, rule=rule, letters=letters) for it in (text, back))
    assert one.status in (0, 1) and one.out == other.out, (text, back, other.err)


@pytest.mark.parametrize("path", sorted(EXAMPLES.glob("*/*.abnf")), ids=lambda it: it.stem)
def test_examples(path):
    text = path.read_bytes()
    given = b"".join(it.read_bytes() for it in path.parent.glob("*.txt") if it.name in ("lines.txt", "records.txt"))
    for rule in rules_of("abnf", text):
        same(text, rule, given + SHORT, Letters.UTF8)


def random_body(dice, depth):
    """Returns a random expression over `a` and `b`."""
    kind = dice.choice(["a", "b", "x", "or", "cat", "opt", "rep", "rep", "list"]) if depth else dice.choice("abx")
    parts = [random_body(dice, depth - 1) for _ in range(dice.randint(2, 6))] if len(kind) > 1 else []
    if kind in ("a", "b"):
        value = f"%x{ord(kind):X}"
        return dice.choice([f'"{kind}"', f'%s"{kind}"', value, f"{value}-{ord(kind):X}", f"{value}.61"])
    if kind == "x":
        return dice.choice(["x", "%x61-62", '""', "ALPHA"])
    if kind == "or":
        return "(" + " / ".join(parts) + ")"
    if kind == "cat":
        return "(" + " ".join(parts[:3]) + ")"
    if kind == "list":
        return f"({parts[0]} *({parts[1]} {parts[0]}))"
    if kind == "opt":
        return f"[{parts[0]}]"
    return dice.choice(["*", "1*", "0*2", "*1", "*0", "2", "0*", "2*3", "2*", "1", "3*3"]) + f"({parts[0]})"


@pytest.mark.parametrize("seed", range(150))
def test_random_grammars(seed):
    dice = random.Random(seed)
    same(f's = {random_body(dice, 3)}\nx = "a" / "b" "b"\n'.encode(), "s", SHORT)


@pytest.mark.parametrize(
    "path", sorted(EXAMPLES.glob("*/*.*g")) + sorted(EXAMPLES.glob("*/*.abnf")), ids=lambda it: it.name
)
def test_pages_and_names(path):
    kind, text = path.suffix[1:], path.read_bytes()
    canonical = canonical_text(kind, text)
    rules = trees.read_rules(kind, canonical)
    for svg in diagrams.svgs(kind, rules).values():
        xml.fromstring(svg)
    page = diagrams.page(kind, path.name, canonical, rules)
    assert page.count("<svg") == len(rules) and "<script" not in page
    assert page.count("<pre>") in (0, len(rules))
    # The names that an editor's server sees are those of the trees
    seen = list(names.places(kind, text.decode()))
    used = [name for body in rules.values() for name in trees.names_in(body)]
    assert list(dict.fromkeys(it.key for it in seen if it.defines)) == [names.key_of(kind, it) for it in rules]
    assert sorted(it.key for it in seen if not it.defines) == sorted(names.key_of(kind, it) for it in used)


def boxes(item):
    """Returns the texts of an item's boxes, in order."""
    parts = [*getattr(item, "items", []), *(getattr(item, it) for it in ("item", "rep") if hasattr(item, it))]
    return [item.text] if type(item).__name__ == "Terminal" else [text for it in parts for text in boxes(it)]


def test_letters_that_can_be_misread_are_numbers():
    text = b's = %x22-23 / %x21.22 / %x41.42 / %x20 / %x7E-7F / "a\\b"'
    wanted = ['%x22 .. "#"', "%x21.22", '%s"AB"', "%x20", '"~" .. %x7F', '"a\\b"']
    assert boxes(diagrams.Drawer("abnf", {}).draw(rules_of("abnf", text)["s"])) == wanted


def test_texts_are_no_markup():
    text = b"S <- '</text><script>' / [\"'<>&] { <b onclick=\"x\">\001 }\n"
    for svg in diagrams.svgs("peg", rules_of("peg", text)).values():
        assert not {"script", "b"} & {it.tag.rpartition("}")[2] for it in xml.fromstring(svg).iter()}


@pytest.mark.parametrize("brackets", [20, 200])
def test_deep_rules(brackets):
    text = "s <- " + "!('x' &(" * (brackets // 2) + "'y'" + ")* 'z' / 'w')" * (brackets // 2)
    drawn = diagrams.svgs("peg", rules_of("peg", text.encode()))["s"]
    assert ("too deep" in drawn) or drawn.count('"group-box"') == brackets


def test_command(tmp_path):
    def run(*words):
        found = subprocess.run(
            [sys.executable, "-m", "fanquber", "diagrams", *words], cwd=tmp_path, capture_output=True
        )
        return found.returncode, found.stdout.decode(), found.stderr.decode()

    (tmp_path / "host.abnf").write_text('uri = "//" [ path ]\n')
    assert run("host.abnf", "-o", "host.html") == (0, "", "")
    assert "uri" in (tmp_path / "host.html").read_text()
    assert run("host.abnf")[1] == (tmp_path / "host.html").read_text()
    (tmp_path / "bad.abnf").write_text("a = (\n")
    status, out, err = run("bad.abnf")
    assert (status, out) == (2, "") and err.startswith("bad.abnf:")
    assert run("none.abnf") == (4, "", "fanquber: none.abnf: No such file or directory\n")
