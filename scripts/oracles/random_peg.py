"""Random grammars in the syntax of peg(1), their texts, and inputs for them."""
import slow_peg

LETTERS = b"abc"
NAMES = ["S", "A", "B", "C", "D_1"]
TEMPLATES = [b"x", b" yytext ", b"[yytext] yyleng", b"yytext yytextual {yytext}", b"", b"\n y\t", b"yyleng-yytext",
             rb" \nyytext\x79ytext\t", rb"\\n\x4 \X41\x7b\x7Dyyleng\r\xg0",
             b"A <- x\r\n\tB<-{y}\rC_1 \t<-\n<- D-1 <-", b"{\r\n}S\n\n _ <- <-\n1A <-\n D-1 <-"]
ESCAPES = {7: "\\a", 8: "\\b", 27: "\\e", 12: "\\f", 10: "\\n", 13: "\\r", 9: "\\t", 11: "\\v"}


def random_bytes(r):
    odd = r.random() < 0.1
    count = r.choice([0, 1, 1, 1, 2, 2, 3])
    return bytes(r.choice(b"\x00\n\r\"'\\]-^\xff" if odd else LETTERS) for _ in range(count))


def random_set(r):
    some = {r.choice(LETTERS) for _ in range(r.randrange(3))} | set(r.choice([b"", b"", b"", b"-^", b"]\\", b"\n\x80"]))
    return frozenset(range(256)) - frozenset(some) if r.random() < 0.3 else frozenset(some)


def leaf(r, names):
    kinds = ["any", "bytes", "bytes", "bytes", "set", "act", "open", "close"]
    kind = r.choice(kinds + ["name", "name", "name"] * bool(names))
    if kind == "bytes":
        return kind, random_bytes(r)
    if kind == "set":
        return kind, random_set(r)
    if kind == "name":
        return kind, r.choice(names)
    return (kind, r.choice(TEMPLATES)) if kind == "act" else (kind,)


def expression(r, names, depth):
    """Returns a random expression; a Seq or a Choice has no part of its own kind where a text would give none."""
    if depth == 0 or r.random() < 0.25:
        return leaf(r, names)
    kind = r.choice(["seq", "seq", "seq", "choice", "choice", "star", "plus", "opt", "and", "not", "capture"])
    if kind == "capture":
        return "seq", [("open",), expression(r, names, depth - 1), ("close",), ("act", r.choice(TEMPLATES))]
    if kind in ("seq", "choice"):
        count = r.choice([0, 2, 2, 2, 3]) if kind == "seq" else r.choice([2, 2, 3])
        return kind, [expression(r, names, depth - 1) for _ in range(count)]
    operand = expression(r, names, depth - 1)
    if kind in ("star", "plus") and slow_peg.is_nullable(operand, names) and r.random() < 0.95:
        operand = ("seq", [leaf(r, []), ("set", frozenset(LETTERS)), operand])
    return kind, operand


def grammar(r):
    """Returns a random grammar: one rule or more; some repeat a name, use a name without a rule, or call themselves."""
    count = r.choice([1, 1, 2, 2, 3, 4])
    names = NAMES[:count]
    rules = []
    for at, name in enumerate(names):
        body = expression(r, names if r.random() < 0.1 else names[at + 1:], 3)
        if r.random() < 0.3:
            again = ("seq", [("set", random_set(r)), ("name", r.choice(names[:at + 1]))])
            body = ("choice", [again, body] if r.random() < 0.5 else [body, again])
        rules.append((name, body))
    if r.random() < 0.5:
        rest = ("seq", [("star", ("set", frozenset(range(256)) - {10})), ("opt", ("bytes", b"\n")), ("act", b"!")])
        line = ("seq", [("name", "S"), ("bytes", b"\n"), ("act", b"#")])
        rules.insert(0, ("Line", ("choice", [line, ("seq", [("and", ("any",)), rest])])))
    if r.random() < 0.05:
        rules.append((r.choice(names), expression(r, names, 1)))
    if r.random() < 0.05:
        rules[-1] = (rules[-1][0], ("seq", [("name", r.choice(["X", "Y"])), rules[-1][1]]))
    return rules


def given(r):
    """Returns a random input."""
    sizes = [r.choice([0, 1, 1, 2, 2, 3, 4, 6]) for _ in range(r.choice([1, 5, 40]))]
    lines = [bytes(r.choice(LETTERS) for _ in range(size)) for size in sizes]
    text = b"\n".join(lines) + r.choice([b"", b"\n"])
    return text + bytes([r.randrange(256)]) if r.random() < 0.1 else text


def byte_text(r, byte, quoted):
    """Returns a byte as a literal or a class may spell it."""
    if byte in ESCAPES and r.random() < 0.7:
        return ESCAPES[byte]
    if not 32 <= byte <= 126:
        return "\\%03o" % byte if r.random() < 0.5 or byte < 16 else "\\x%02x" % byte
    if chr(byte) in quoted or r.random() < 0.02:
        return "\\%03o" % byte
    return "\\" + chr(byte) if chr(byte) in "\\[]'\"" else chr(byte)


def bytes_text(r, letters):
    # a digit after an octal or hexadecimal escape of fewer digits would belong to it: all have their full length
    return r.choice("'\"").join(["", "".join(byte_text(r, it, "'\"") for it in letters), ""])


def set_text(r, members):
    """Returns a class, by single bytes, or by the others after `^`."""
    others = frozenset(range(256)) - members
    front, some = ("^", others) if len(others) < len(members) else ("", members)
    return "[" + front + "".join(byte_text(r, it, "-^[]") for it in sorted(some)) + "]"


def blank(r):
    return r.choice([" ", " ", " ", "  ", "\t", "\n ", " # a comment\n ", " #\r\n\t"])


def needs_brackets(e, within):
    """Returns whether an expression needs brackets in the form round it: body, choice, seq, suffix, prefix, or and."""
    kind = e[0]
    if within == "body":
        return False
    if kind == "seq":
        return within != "choice" and (not e[1] or within in ("seq", "suffix", "prefix", "and"))
    if kind in ("and", "not"):
        return within in ("suffix", "prefix", "and")
    if kind in ("star", "plus", "opt"):
        return within == "suffix" or within == "and" and e[1][0] == "act"
    # an action right after `&` would be a code predicate
    return kind == "choice" or kind == "act" and within == "and"


def text_of(r, e, within):
    """Returns an expression's text, in brackets where they are needed, and sometimes elsewhere."""
    text = plain_text(r, e)
    if needs_brackets(e, within) or r.random() < 0.05:
        return "(" + blank(r) * r.randrange(2) + text + blank(r) * r.randrange(2) + ")"
    return text


def plain_text(r, e):
    kind = e[0]
    if kind in ("any", "open", "close"):
        return {"any": ".", "open": "<", "close": ">"}[kind]
    if kind == "bytes":
        return bytes_text(r, e[1])
    if kind == "set":
        return set_text(r, e[1])
    if kind == "name":
        return e[1]
    if kind == "act":
        return "{" + e[1].decode() + "}"
    if kind == "seq":
        return blank(r).join(text_of(r, it, "seq") for it in e[1])
    if kind == "choice":
        return (blank(r) + "/" + blank(r)).join(text_of(r, it, "choice") for it in e[1])
    if kind in ("and", "not"):
        return ("&" if kind == "and" else "!") + text_of(r, e[1], "and" if kind == "and" else "prefix")
    return text_of(r, e[1], "suffix") + {"star": "*", "plus": "+", "opt": "?"}[kind]


def grammar_text(r, rules):
    lines = [name + blank(r) + "<-" + blank(r) + text_of(r, body, "body") for name, body in rules]
    return "".join(it + r.choice(["\n", "\r\n", "\r", " #\n"]) for it in lines).encode()
