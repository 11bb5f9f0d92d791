"""The rules of a grammar as trees. `pegi` reads the canonical text by a grammar of its own, in data/, and prints JSON.

A tree is a tuple: a word, and then its parts. Trees compare, hash and match as tuples do.

| Tree | Of | Means |
|---|---|---|
| `("or", e, e, ..)` | both | alternatives, in order |
| `("cat", e, ..)` | both | one after the other; of peg(1) also none |
| `("name", n)` | both | what the rule n derives or takes |
| `("opt", e)` | both | e or nothing |
| `("rep", least, most, e)` | ABNF | e from least to most times; most is None where there is no bound |
| `("text", t)`, `("exact", t)` | ABNF | the text t, in either case of its letters; as it stands |
| `("values", v, ..)`, `("range", v, w)` | ABNF | these numbers in order; one number from v to w |
| `("prose", t)` | ABNF | a description in words |
| `("star", e)`, `("plus", e)` | peg(1) | e any number of times; at least once |
| `("and", e)`, `("not", e)` | peg(1) | whether e matches here; does not |
| `("bytes", t)`, `("set", t)`, `("any",)` | peg(1) | a literal, one byte of a class, any byte |
| `("act", t)`, `("open",)`, `("close",)` | peg(1) | an action with its template; the ends of a capture |

Literals and classes are spelled as the canonical text spells them, without quotes and brackets. Each byte of a
template is one character of the `str`.
"""
import json
import pathlib
from typing import Any, Dict, List, Tuple

from ._library import MAX_LIMIT, Status, peg

Tree = Tuple[Any, ...]
_DATA = pathlib.Path(__file__).parent / "data"


def read_rules(kind: str, canonical: bytes) -> Dict[str, Tree]:
    """Returns the rules of a canonical text of a kind, `abnf` or `peg`: their trees by name, in order. `ValueError` if
    the text is not canonical; `RecursionError` if a tree is deeper than Python can go."""
    reply = peg((_DATA / f"{kind}tree.peg").read_bytes(), canonical, raw=True, limit=MAX_LIMIT)
    if reply.status != Status.DONE:
        raise ValueError(f"the text is not canonical: {reply.err!r}")
    # Templates and classes may hold any byte, line feeds too
    decoder, printed, at = json.JSONDecoder(strict=False), reply.out.decode("latin-1"), 0
    rules: Dict[str, Tree] = {}
    while at < len(printed):
        (name, body), at = decoder.raw_decode(printed, at)
        rules[name] = _tree(body)
        at += 1
    return rules


def _tree(listed: List[Any]) -> Tree:
    """Returns a list of JSON as a tree, its numbers as `int`."""
    word, parts = listed[0], listed[1:]
    if word == "rep":
        least, most, inner = parts
        return word, int(least or 0), int(most) if most else None, _tree(inner)
    if word in ("values", "range"):
        return (word, *(int(it, 16) for it in parts))
    made: List[Any] = [word]
    for it in parts:
        made.append(_tree(it) if isinstance(it, list) else it)
    return tuple(made)


def names_in(tree: Tree) -> List[str]:
    """Returns the names that an expression uses, in order, each as often as it does."""
    if tree[0] == "name":
        return [tree[1]]
    return [name for part in tree[1:] if isinstance(part, tuple) for name in names_in(part)]
