"""Random grammars in ABNF, their texts, and lines for them."""
import slow_abnf

NAMES = ["s", "A-1", "b", "C"]
LETTERS = b"abAB01"
LARGE = [7, 65536, 4294967295]
A, B, S = ("text", b"a", False), ("text", b"b", False), ("name", "s")
EITHER = ("alt", [A, B])
# Rules that are recursive at the end, at the front and inside, and rules of which many ways are open at once.
SHAPES = [
    [("s", False, ("alt", [("concat", [A, S]), A]))],
    [("s", False, ("alt", [("concat", [A, ("name", "t")]), A])), ("t", False, ("alt", [("concat", [B, S]), B]))],
    [("s", False, ("alt", [("concat", [S, A]), A]))],
    [("s", False, ("alt", [("concat", [A, S, A]), ("concat", [B, S, B]), ("opt", A)]))],
    [("s", False, ("concat", [("rep", 0, None, EITHER), A, ("rep", 3, 3, EITHER)]))],
    [("s", False, ("concat", [("rep", 0, 7, EITHER), ("rep", 2, 5, ("alt", [A, ("text", b"0", False)]))]))],
]


def leaf(r, names):
    often = ["text"] * 4 + ["values", "range", "name", "name", "name", "core"]
    kind = r.choice(often + ["prose"] * (r.random() < 0.05))
    if kind == "text":
        letters = bytes(r.choice(LETTERS + b" %") for _ in range(r.choice([0, 1, 1, 1, 2, 2, 3])))
        return kind, letters, r.random() < 0.3
    if kind == "values":
        values = [65, 97, 98, 48, 300, 255, 10, 13, 0xD800, 0x10FFFF]
        return kind, [r.choice(values) for _ in range(r.choice([1, 1, 2]))]
    if kind == "range":
        first = r.choice([0, 48, 65, 97, 97, 200, 0xD7FF])
        return kind, first, first + r.choice([0, 1, 25, 100, 2000, 0x110000, -1 if first else 0])
    if kind == "prose":
        return kind, r.choice([b"any text", r.choice(["s", "B", "z", "Digit", "a"]).encode()])
    found = r.choice(["ALPHA", "digit", "BIT", "HEXDIG", "WSP", "LWSP", "Crlf"] if kind == "core" else names)
    return "name", found if r.random() < 0.8 else found.swapcase()


def element(r, names, depth):
    if depth == 0 or r.random() < 0.25:
        return leaf(r, names)
    kind = r.choice(["concat", "concat", "alt", "alt", "rep", "rep", "opt"])
    if kind in ("concat", "alt"):
        return kind, [element(r, names, depth - 1) for _ in range(r.choice([2, 2, 3]))]
    if kind == "opt":
        return kind, element(r, names, depth - 1)
    least = r.choice([0, 0, 1, 1, 2, 3] * 3 + LARGE)
    more = min(least + r.randrange(3), LARGE[-1])
    most = r.choice([None, None, least, more, 7, least - 1 if least else 0, LARGE[-1]])
    return kind, least, most, element(r, names, depth - 1)


def grammar(r):
    """Returns a random grammar: recursive ones, names without a rule, `=/`, core rules replaced or extended; or one of
    the shapes."""
    if r.random() < 0.1:
        return r.choice(SHAPES)
    names = NAMES[:r.choice([1, 2, 2, 3, 4])]
    rules = [(name, r.random() < 0.05, element(r, names + ["z"] * (r.random() < 0.05), 3)) for name in names]
    for name in names:
        if r.random() < 0.15:
            rules.insert(r.randrange(len(rules) + 1), (r.choice([name, name.upper()]), True, element(r, names, 2)))
    if r.random() < 0.1:
        rules.append((r.choice(["DIGIT", "wsp", "Alpha", "LF"]), r.random() < 0.5, element(r, names, 1)))
    if r.random() < 0.04:
        rules.append((r.choice(names).swapcase(), False, element(r, names, 1)))
    return rules


def spelled(value, is_utf8):
    """Returns the bytes of a letter; none where the value is not one."""
    if is_utf8:
        return b"" if 0xD800 <= value <= 0xDFFF or value > 0x10FFFF else chr(value).encode()
    return bytes([value]) if value < 256 else b""


def grown(r, rules, e, left, is_utf8=False):
    """Returns a string that the element derives, as far as so many steps go; else any."""
    kind = e[0]
    if left <= 0 or kind == "prose":
        return b""
    if kind == "text":
        return e[1] if e[2] else bytes(r.choice([it, ord(chr(it).swapcase())]) for it in e[1])
    if kind == "values":
        return b"".join(spelled(it, is_utf8) for it in e[1])
    if kind == "range":
        last = e[2] if is_utf8 else min(e[2], 255)
        return spelled(r.randint(e[1], last), is_utf8) if e[1] <= last else b""
    if kind == "concat":
        return b"".join(grown(r, rules, it, left - 1, is_utf8) for it in e[1])
    if kind == "alt":
        return grown(r, rules, r.choice(e[1]), left - 1, is_utf8)
    if kind == "opt":
        return grown(r, rules, e[1], left - 1, is_utf8) if r.random() < 0.5 else b""
    if kind == "rep":
        most = e[1] + 2 if e[2] is None else min(e[2], e[1] + 2)
        turns = min(r.randint(min(e[1], most), most), 9)
        return b"".join(grown(r, rules, e[3], left - 1, is_utf8) for _ in range(turns))
    return grown(r, rules, rules.all.get(e[1].upper(), ("prose", b"")), left - 1, is_utf8)


def line(r, rules, judged, longest, is_utf8, end):
    """Returns a line that the judged rule derives, or one near it, or any, without the byte that ends lines. A long
    line takes more steps."""
    if r.random() < 0.25:
        return bytes(r.choice(LETTERS + b"\n") for _ in range(r.randrange(6))).replace(end, b"")
    found = bytearray(grown(r, rules, ("name", judged), 12 if longest == 10 else 4 * longest, is_utf8)[:longest])
    if r.random() < 0.4:
        at = r.randrange(len(found) + 1)
        found[at:at + r.randrange(2)] = bytes([r.choice(LETTERS + b"\n")] * r.randrange(2))
    return bytes(found).replace(end, b"")


def given(r, grammar_of, judged, count, longest, is_utf8, end=b"\n"):
    """Returns an input of so many lines, most of them of at most so many bytes, each with that byte after it."""
    rules = slow_abnf.Rules(grammar_of)
    first = judged or next(iter(rules.file))
    lines = [line(r, rules, first, longest, is_utf8, end) for _ in range(count)]
    return end.join(lines) + r.choice([b"", end, end])


def number_text(r, value, base):
    zeros = "0" * r.choice([0, 0, 0, 1, 2])
    return zeros + {"x": "%X" % value, "d": "%d" % value, "b": bin(value)[2:]}[base]


def blank(r):
    return r.choice([" ", " ", " ", "  ", "\t", "\n    ", " ; a comment\n\t  ", "\n\n;\r\n    "])


def repeat_text(r, least, most):
    if least == most and r.random() < 0.7:
        return str(least)
    front = "" if least == 0 and r.random() < 0.7 else str(least)
    return front + "*" + ("" if most is None else str(most))


def plain_text(r, e):
    kind = e[0]
    if kind == "text":
        return ("%s" if e[2] else r.choice(["", "", "%i", "%I"])) + '"' + e[1].decode() + '"'
    if kind in ("values", "range"):
        base = r.choice("xxdb")
        mark, join = r.choice([base, base.upper()]), "." if kind == "values" else "-"
        return "%" + mark + join.join(number_text(r, it, base) for it in (e[1] if kind == "values" else e[1:]))
    if kind == "name":
        return e[1]
    if kind == "prose":
        return "<" + e[1].decode() + ">"
    if kind == "concat":
        return blank(r).join(text_of(r, it, "concat") for it in e[1])
    if kind == "alt":
        return r.choice([" / ", "/", blank(r) + "/" + blank(r)]).join(text_of(r, it, "alt") for it in e[1])
    if kind == "opt":
        return "[" + plain_text(r, e[1]) + blank(r) * r.randrange(2) + "]"
    return repeat_text(r, e[1], e[2]) + text_of(r, e[3], "rep")


def text_of(r, e, within):
    text, kind = plain_text(r, e), e[0]
    loose = {"alt": True, "concat": within in ("concat", "rep"), "rep": within == "rep"}.get(kind, False)
    if loose or r.random() < 0.05:
        return "(" + blank(r) * r.randrange(2) + text + blank(r) * r.randrange(2) + ")"
    return text


def grammar_text(r, rules):
    """Returns the text of a grammar."""
    margin, lines = r.choice(["", "", "  "]), []
    for name, adds, body in rules:
        begin = margin + name + r.choice([" ", ""]) + ("=/" if adds else "=") + " "
        lines.append(begin + plain_text(r, body) + r.choice(["\n", "\r\n", " ; end\n"]))
    return "".join(lines).encode()
