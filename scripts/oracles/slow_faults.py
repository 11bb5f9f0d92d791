"""Slow answers to what is wrong with a grammar's text, and the lines that explain it.

The tokens of a text are found by regular expressions, and what can stand after them by Earley's sets over a grammar of
their kinds: a kind can stand exactly if an item of the last set reads it next, since each symbol derives something.
"""
import collections
import re

SHOWN, HALF = 72, 36
MAX_OPEN, MAX_NUMBER, MAX_FAULTS = 200, 4294967295, 16

# A token: its kind, where it begins, its bytes, and in ABNF whether white space stands right before it, and whether it
# is the first of a line that begins a rule.
Token = collections.namedtuple("Token", "kind start text gap first", defaults=[False, False])

# A terminal of a grammar of kinds: what a token must be to be read by it; None is either.
Reads = collections.namedtuple("Reads", "kind gap first", defaults=[None, False])


class Prefixes:
    """The sets of Earley's items over a list of tokens that still begins what the first rule derives."""

    def __init__(self, rules):
        self.rules, self.sets = rules, []
        self.nullable = set()
        while more := {name for name, body in rules if all(it in self.nullable for it in body)} - self.nullable:
            self.nullable |= more
        self.close({(name, body, 0, 0) for name, body in rules if name == rules[0][0]})

    def close(self, items):
        """Adds the set of these items and of all that follow from them."""
        found, queue = set(), list(items)
        self.sets.append(found)
        while queue:
            item = queue.pop()
            if item in found:
                continue
            found.add(item)
            name, body, dot, origin = item
            if dot == len(body):
                queue += [(n, b, d + 1, o) for n, b, d, o in list(self.sets[origin]) if d < len(b) and b[d] == name]
            elif isinstance(body[dot], str):
                queue += [(n, b, 0, len(self.sets) - 1) for n, b in self.rules if n == body[dot]]
                if body[dot] in self.nullable:
                    queue.append((name, body, dot + 1, origin))

    def next_terminals(self):
        return {b[d] for n, b, d, o in self.sets[-1] if d < len(b) and isinstance(b[d], Reads)}

    def can_stand(self, kind, gap, first):
        return any(it.kind == kind and it.gap in (None, gap) and it.first == first for it in self.next_terminals())

    def read(self, token):
        """Goes on after a token that can stand."""
        self.close({(n, b, d + 1, o) for n, b, d, o in self.sets[-1] if d < len(b) and isinstance(b[d], Reads)
                    and b[d].kind == token.kind and b[d].gap in (None, token.gap) and b[d].first == token.first})


def rules_of(text, terminals):
    """Returns the rules of a grammar in lines `name: symbol .. | ..`; a symbol of the terminals is one."""
    found = []
    for line in text.split("\n"):
        name, _, bodies = line.strip().partition(":")
        found += [(name, tuple(terminals.get(it, it) for it in body.split())) for body in bodies.split("|")]
    return found


PEG_KINDS = "Ident Arrow Begin EndCap Slash Amp Bang Quest Star Plus Dot LParen RParen Literal Class Action End".split()
PEG_RULES = rules_of("""text: rules End
    rules: rule | rules rule
    rule: Ident Arrow choice
    choice: items | choice Slash items
    items: | items item
    item: suffixed | Bang suffixed | Amp firm
    suffixed: firm | Action | Action Quest | Action Star | Action Plus
    firm: primary | primary Quest | primary Star | primary Plus
    primary: Ident | Literal | Class | Dot | Begin | EndCap | LParen choice RParen""",
                     {it: Reads(it) for it in PEG_KINDS})

ABNF_KINDS = "Name Text Num Prose LParen LBrack Repeat Is Adds Slash RParen RBrack End".split()
ABNF_RULES = rules_of("""text: rules End
    rules: rule | rules rule
    rule: First defined choice
    defined: Is | Adds
    choice: items | choice Slash items
    items: repeated | items repeated+
    repeated: element | Repeat element-
    repeated+: element+ | Repeat+ element-
    element: Name | Text | Num | Prose | LParen choice RParen | LBrack choice RBrack
    element+: Name+ | Text+ | Num+ | Prose+ | LParen+ choice RParen | LBrack+ choice RBrack
    element-: Name- | Text- | Num- | Prose- | LParen- choice RParen | LBrack- choice RBrack""",
                      {it + mark: Reads(it, gap) for it in ABNF_KINDS
                       for mark, gap in (("", None), ("+", True), ("-", False))} | {"First": Reads("Name", None, True)})

PEG_WHITE = re.compile(rb"(?:[ \t\n\r]|#[^\n\r]*)*")
PEG_TOKENS = [
    ("Ident", rb"[A-Za-z_][A-Za-z0-9_]*"), ("Arrow", rb"<-"), ("Begin", rb"<"), ("EndCap", rb">"), ("Slash", rb"/"),
    ("Amp", rb"&"), ("Bang", rb"!"), ("Quest", rb"\?"), ("Star", rb"\*"), ("Plus", rb"\+"), ("Dot", rb"\."),
    ("LParen", rb"\("), ("RParen", rb"\)"), ("Literal", rb"'(?:[^'\\]|\\[\s\S])*'|\"(?:[^\"\\]|\\[\s\S])*\""),
    ("Class", rb"\[(?:[^\]\\]|\\[\s\S])*\]"),
]
ABNF_WHITE = re.compile(rb"(?:[ \t\n]|\r\n|;[^\n]*)*")
ABNF_TOKENS = [
    ("Name", rb"[A-Za-z][A-Za-z0-9-]*"), ("Adds", rb"=/"), ("Is", rb"="), ("Slash", rb"/"), ("LParen", rb"\("),
    ("RParen", rb"\)"), ("LBrack", rb"\["), ("RBrack", rb"\]"), ("Repeat", rb"[0-9]+(?:\*[0-9]*)?|\*[0-9]*"),
    ("Text", rb"(?:%[sSiI])?\"[ !#-~]*\""), ("Prose", rb"<[ -=?-~]*>"),
    *(("Num", rb"%%[%s](?:[%s]+-[%s]+|[%s]+(?:\.[%s]+)*)" % ((mark,) + (digits,) * 4))
      for mark, digits in ((rb"xX", rb"0-9A-Fa-f"), (rb"dD", rb"0-9"), (rb"bB", rb"01"))),
]

PEG_PHRASES = [
    ("a name", ["Ident"], ["Literal"]), ('"<-"', ["Arrow"], []),
    ("an element", "Ident Literal Class Dot LParen Begin EndCap Action".split(), []),
    ("an element but an action", "Ident Literal Class Dot LParen Begin EndCap".split(), ["Action"]),
    *((f'"{mark}"', [kind], []) for mark, kind in
      zip("&!?*+/)", "Amp Bang Quest Star Plus Slash RParen".split())),
    ("the end of the text", ["End"], []),
]
INNER = "Name Text Num Prose LParen LBrack".split()
ABNF_PHRASES = [
    ("an element", [(it, gap, False) for it in [*INNER, "Repeat"] for gap in (True, False)], []),
    ("white space and an element", [(it, True, False) for it in [*INNER, "Repeat"]], [("Name", False, False)]),
    ("an element right behind it", [(it, False, False) for it in INNER], [("Repeat", False, False)]),
    *((f'"{mark}"', [(kind, gap, False) for gap in (True, False)], []) for mark, kind in
      (("=", "Is"), ("=/", "Adds"), ("/", "Slash"), (")", "RParen"), ("]", "RBrack"))),
    ("a rule", [("Name", gap, True) for gap in (True, False)], []),
    ("the end of the text", [("End", gap, False) for gap in (True, False)], []),
]

PEG_FACTS = [
    (b"%{", '"%{", "%}", "%%" are of leg(1)'), (b"%}", '"%{", "%}", "%%" are of leg(1)'),
    (b"%%", '"%{", "%}", "%%" are of leg(1)'), (b"@", '"@{ .. }" is of leg(1)'),
    (b";", '";" is of leg(1): leave it out'), (b"=", 'a rule is defined by "<-": "=" is of leg(1)'),
    (b"'", "the literal has no closing quote"), (b'"', "the literal has no closing quote"),
    (b"[", 'the class has no closing "]"'), (b"{", 'the action has no closing "}"'),
    (b"\xE2\x86\x90", 'a rule is defined by "<-"'), (b":", 'a rule is defined by "<-"'),
    (b"|", 'alternatives have "/" between them'), (b"-", 'names hold letters, digits and "_"'),
]
ABNF_FACTS = [
    (b"|", 'alternatives have "/" between them'), (b":", 'a rule is defined by "="'),
    (b"_", 'names hold letters, digits and "-"'),
    (b"#", '"#" is no part of ABNF in RFC 5234; lists of RFC 9110, section 5.6.1, are to be written out'),
    (b"'", "texts stand in double quotes"),
    (b'"', "the text has no closing quote, or holds a byte that is not %x20-7E"),
    (b"<", 'the prose has no closing ">", or holds a byte that is not %x20-7E'),
    (b"%", "a number is %x, %d or %b and digits"), (b"{", "repetitions are written *(e)"),
    (b"+", "repetitions are written 1*e"), (b"?", "options are written [e]"),
]


def action_end(text, start):
    """Returns where the action that begins there ends, or None."""
    depth = 0
    for at in range(start, len(text)):
        depth += {b"{": 1, b"}": -1}.get(text[at:at + 1], 0)
        if depth == 0:
            return at + 1
    return None


def tokens_of(text, white, kinds, has_actions, at=0):
    """Returns the tokens of a text from a place on, up to its end or a bad one: each is the longest there."""
    found, front = [], at
    while True:
        start = white.match(text, at).end()
        ends = [(it.end(), kind) for kind, form in kinds if (it := re.compile(form).match(text, start))]
        if has_actions and text[start:start + 1] == b"{" and (end := action_end(text, start)):
            ends.append((end, "Action"))
        kind = "End" if start == len(text) else "Bad"
        at, kind = max(ends, default=(len(text), kind))
        after = found[-1].start + len(found[-1].text) if found else front
        found.append(Token(kind, start, text[start:at], start > after))
        if kind in ("End", "Bad"):
            return found


def indent(text, start):
    """Returns how many spaces and tabs stand before a place on its line; None if anything else does."""
    front = text[:start].rpartition(b"\n")[2]
    return None if front.strip(b" \t") else len(front)


def margin_of(text):
    """Returns the indentation of the first token of a text in ABNF; None if something else stands before it."""
    return indent(text, ABNF_WHITE.match(text).end())


def marked(text, tokens):
    """Marks the tokens of ABNF that are the first of a line that begins a rule."""
    margin = margin_of(text)
    found = []
    for it in tokens:
        here = indent(text, it.start)
        found.append(it._replace(first=it.kind != "End" and None not in (margin, here) and here <= margin))
    return found


def shown(text):
    return "".join(" " if it == 9 else chr(it) if 32 <= it <= 126 else "\\x%02X" % it for it in text)


def place(text, token, line_end):
    """Returns the picture of a token's place, and the first bytes of the report on it."""
    if token.kind == "End":
        return "  at the end of the text: "
    before = len(re.split(line_end, text[:token.start])[-1])
    line = text[token.start - before:token.start] + re.split(line_end, text[token.start:])[0]
    front = min(max(before - HALF, 0), len(line) - SHOWN) if len(line) > SHOWN else 0
    left = ".." * (front > 0) + shown(line[front:before])
    right = shown(line[before:front + SHOWN]) + ".." * (len(line) > front + SHOWN)
    return f"  {left}{right}\n  {' ' * len(left)}^\n  column {before + 1}: "


def expected(prefixes, phrases):
    def can(kind):
        return prefixes.can_stand(*(kind if isinstance(kind, tuple) else (kind, False, False)))
    words = [words for words, kinds, bars in phrases if all(map(can, kinds)) and not any(map(can, bars))]
    return "expected " + " or ".join([", ".join(words[:-1])] * (len(words) > 1) + words[-1:]) + "\n"


def bad_fact(token, text, facts):
    if token.kind != "Bad":
        return ""
    return next((f"  {reported}\n" for front, reported in facts if text.startswith(front, token.start)), "")


def peg_point(front):
    """Returns the report on the code point that these bytes begin with, or None."""
    for points, words in ((range(0x2018, 0x2020), "is a curly quote: literals stand in ' or \""),
                          ([*range(0x2010, 0x2016), 0x2212], 'is a dash: write "-"'),
                          ([0xA0, *range(0x2000, 0x200C), 0x202F, 0x3000], "is no white space: write a space"),
                          ([0xFEFF], "is a byte order mark: a grammar has none")):
        for point in points:
            if front.startswith(chr(point).encode()):
                return f"U+{point:04X} {words}"
    return None


def peg_mistake(text, tokens, number):
    """Returns the line on what the token that decides shows: the first row that applies."""
    token = tokens[number]
    if token.kind != "Bad":
        return ""
    if text[:2] in (b"\xFF\xFE", b"\xFE\xFF") or b"\0" in text[:2]:
        return "  the text is UTF-16, not UTF-8\n"
    if reported := peg_point(text[token.start:]):
        return f"  {reported}\n"
    before = tokens[number - 1]
    if number > 1 and before.kind == "Ident" and not token.gap and re.match(rb":[A-Za-z_]", text[token.start:]):
        return '  "name:element" is of leg(1)\n'
    return bad_fact(token, text, PEG_FACTS)


def is_large(token):
    """Returns whether a number of a token of ABNF is over its limit."""
    if token.kind == "Repeat":
        return any(int(it) > MAX_NUMBER for it in re.findall(rb"[0-9]+", token.text))
    base = {b"x": 16, b"d": 10, b"b": 2}.get(token.text[1:2].lower())
    numbers = re.findall(rb"[0-9A-Fa-f]+", token.text[2:])
    return token.kind == "Num" and any(int(it, base) > MAX_NUMBER for it in numbers)


def opens(token):
    return {"LParen": 1, "LBrack": 1, "RParen": -1, "RBrack": -1}.get(token.kind, 0)


def peg_from(text, start):
    """Returns the report on the first fault of a grammar for pegi where it is read from a place on, which it explains,
    and from where on the next rule line is looked for; None if there is no fault."""
    tokens, prefixes, depth = tokens_of(text, PEG_WHITE, PEG_TOKENS, True, start), Prefixes(PEG_RULES), 0
    for number, token in enumerate(tokens):
        low = tokens[number - 1].start if token.kind == "Arrow" and number > 0 else token.start
        line = len(re.findall(rb"\r\n|\r|\n", text[:token.start])) + 1
        where = place(text, token, rb"\r\n|\r|\n")
        if not prefixes.can_stand(token.kind, False, False):
            is_code = token.kind == "Action" and number > 0 and tokens[number - 1].kind == "Amp"
            reported = f"line {line}: " + ("code predicate\n" if is_code else "syntax error\n")
            return reported + where + expected(prefixes, PEG_PHRASES) + peg_mistake(text, tokens, number), low
        depth += opens(token)
        if depth > MAX_OPEN:
            return f"line {line}: nested too deeply\n{where}200 brackets are open before it\n", low
        prefixes.read(token._replace(gap=False))
    return None


def peg_rule_lines(text):
    """Returns where the rule lines of a grammar for pegi begin, and where the names in them do."""
    starts = [0, *(it.end() for it in re.finditer(rb"\r\n|\r|\n", text))]
    found = [it for at in starts if (it := re.compile(rb"([ \t]*)[A-Za-z_][A-Za-z0-9_-]*[ \t]*<-").match(text, at))]
    return [(it.start(), it.end(1)) for it in found if len(it[1]) <= len(found[0][1])]


def all_faults(text, read_from, lines):
    """Returns the reports on the faults of a grammar, of which each after the first is the first from a rule line on;
    None if it has none."""
    reports, start, lines = "", 0, lines(text)
    for _ in range(MAX_FAULTS):
        found = read_from(text, start)
        if not found:
            break
        reports += found[0]
        start = next((at for at, word in lines if word >= found[1] and at > start), None)
        if start is None:
            break
    return reports or None


def peg(text):
    """Returns the reports on the faults of a grammar for pegi, and explains them; None if it has none."""
    return all_faults(text, peg_from, peg_rule_lines)


def line_facts(text, tokens, number):
    """Returns the report on a token of ABNF by where its line, and that of the first token of the text, begin."""
    token, margin, facts = tokens[number], margin_of(text), ""
    if token.first and number > 0:
        facts += f"  its line begins a rule: it is indented by {indent(text, token.start)}, the first by {margin}\n"
    before = tokens[number - 1] if number > 0 else token
    if token.kind in ("Is", "Adds") and before.kind == "Name" and not before.first:
        facts += f"  the name before it does not begin a rule: rules are indented by at most {margin}\n"
    return facts


OPERANDS = {"Name", "Text", "Num", "Prose", "RParen", "RBrack"}
BEGIN = {"Name", "Text", "Num", "Prose", "LParen", "LBrack"}
POINTS = [
    ("\u2018-\u201f", 'a curly quote: texts stand in "'), ("\u2010-\u2015\u2212", 'a dash: write "-"'),
    ("\xa0\u2000-\u200b\u202f\u3000", "no white space: write a space"),
    ("\ufeff", "a byte order mark: a grammar has none"),
]


def mistake(text, tokens, number):
    """Returns the line of the first usual mistake that shows, without its end; None if none does."""
    token, before = tokens[number], tokens[number - 1] if number else None
    in_range = number > 1 and tokens[number - 2].kind == "LBrack" and before.kind in ("Repeat", "Name")
    kind, ahead, was = token.kind, text[token.start:], before.kind if before else None
    bad, tight = kind == "Bad", not token.gap
    if bad and (text[:2] in (b"\xFF\xFE", b"\xFE\xFF") or 0 in text[:2]):
        return "the text is UTF-16, not UTF-8"
    if bad and ahead[:1] == b"\r" or kind == "End" and b"\r" in text and b"\n" not in text:
        return "lines end with LF or CR LF, not CR"
    if tight and ahead[:1] == b'"' and was == "Text" and before.text.endswith(b'\\"'):
        return "a double quote is DQUOTE: texts have no escapes"
    if tight and kind == was == "Slash" or bad and ahead[:1] == b"#" and (token.first or ahead[1:2] in b" \t\r\n#!"):
        return 'comments begin with ";"'
    if tight and was == "Num" and (kind == "Name" or kind == "Repeat" and ahead[:1].isdigit()):
        return "a number is %x, %d or %b and digits"
    if not bad and was == "Repeat" or tight and kind == "Repeat" and was in OPERANDS or re.match(rb"\{[0-9,]", ahead):
        return "a repetition stands before its element: 2*3DIGIT"
    if tight and not token.first and kind in BEGIN and was in OPERANDS:
        return "elements have white space between them"
    if bad and ahead[0] >= 0x80:
        point = next((it for size in (2, 3) if (it := ahead[:size].decode(errors="replace")) != "\ufffd"), "\ufffd")
        for those, reported in POINTS:
            if re.match(f"[{those}]", point):
                return f"U+{ord(point[0]):04X} is {reported}"
    if bad and tight and ahead[:1] == b"+" and before and was == "Name" and before.text in (b"U", b"u"):
        return "a code point is written %x41"
    if bad and (was in ("Num", "Text") and re.match(rb'-[ \t]*[%"0-9A-Fa-f]|\.\.', ahead)
                or in_range and ahead[:1] == b"-"):
        return "a range is written %x30-39"
    if bad and ahead[:1] == b"-" and was in OPERANDS:
        return "ABNF has no exceptions"
    return None


def abnf_decision(text):
    """Returns the tokens of a text, the number of the first with which they are no grammar in ABNF, the prefixes before
    it, and what is wrong with it; the last three are None if they are a grammar."""
    tokens, prefixes, depth = tokens_of(text, ABNF_WHITE, ABNF_TOKENS, False), Prefixes(ABNF_RULES), 0
    tokens = marked(text, tokens)
    for number, token in enumerate(tokens):
        depth += opens(token)
        if not prefixes.can_stand(token.kind, token.gap, token.first):
            return tokens, number, prefixes, "syntax error"
        if is_large(token) or depth > MAX_OPEN:
            return tokens, number, prefixes, "number too large" if is_large(token) else "nested too deeply"
        prefixes.read(token)
    return tokens, None, None, None


def abnf_from(whole, start):
    """Returns the report on the first fault of a grammar in ABNF where it is read from a place on as a text of its own,
    and from where on the next rule line is looked for; None if there is no fault."""
    text = whole[start:]
    tokens, number, prefixes, fault = abnf_decision(text)
    if number is None:
        return None
    token = tokens[number]
    line, where = whole.count(b"\n", 0, start + token.start) + 1, place(text, token, rb"\r?\n")
    facts = {"number too large": "above 4294967295\n", "nested too deeply": "200 brackets are open before it\n"}
    if fault not in facts:
        reported = mistake(text, tokens, number)
        facts = bad_fact(token, text, ABNF_FACTS) + line_facts(text, tokens, number)
        facts = {fault: expected(prefixes, ABNF_PHRASES) + (f"  {reported}\n" if reported else facts)}
    return f"line {line}: {fault}\n{where}{facts[fault]}", start + token.start


def abnf_rule_lines(text):
    """Returns where the rule lines of a grammar in ABNF begin that have the margin of its first line, and where the
    words in them do."""
    form = re.compile(rb"([ \t]*)[^ \t\r\n;\"<>=/()\[\]:]+[ \t]*:{0,2}=")
    starts = [0, *(it.end() for it in re.finditer(rb"\n", text))]
    found = [it for at in starts if (it := form.match(text, at))]
    return [(it.start(), it.end(1)) for it in found if len(it[1]) == margin_of(text)]


def abnf(text):
    """Returns the reports on the faults of a grammar for abnfi, and explains them; None if it has none."""
    return all_faults(text, abnf_from, abnf_rule_lines)


def first_of_abnf(text):
    """Returns the report on the first of these faults, and explains it; None if there is none."""
    found = abnf_from(text, 0)
    return found and found[0]
