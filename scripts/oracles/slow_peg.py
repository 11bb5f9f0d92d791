"""What pegi must answer, worked out slowly and plainly: Ford's definition of expressions ("Parsing Expression
Grammars", 2004, section 3), the units of an input, the text of actions, and the notes on a grammar. It shares nothing
with the crates.

An expression is a tuple: ("any",), ("bytes", b), ("set", frozenset), ("name", n), ("seq", [e ..]), ("choice", [e ..]),
("star", e), ("plus", e), ("opt", e), ("and", e), ("not", e), ("act", template), ("open",), ("close",). A grammar is a
list of (name, expression), in which a name may stand twice.
"""
import re

STEPS = 20000


class TooSlow(Exception):
    """A match needs more steps than a test is worth."""


class Matcher:
    """Matches by recursion over the expression. `looked` is one more than the greatest index that was compared."""

    def __init__(self, rules, text):
        self.rules, self.text, self.looked, self.left = rules, text, 0, STEPS

    def compare(self, place, holds):
        """Returns whether a byte stands at the place and meets the test."""
        if place >= len(self.text):
            return False
        self.looked = max(self.looked, place + 1)
        return holds(self.text[place])

    def match(self, e, p):
        """Returns None where the expression fails at p, or else where it ends and its events."""
        self.left -= 1
        if self.left < 0:
            raise TooSlow
        return getattr(self, "match_" + e[0])(e, p)

    def match_any(self, e, p):
        return (p + 1, []) if self.compare(p, lambda b: True) else None

    def match_set(self, e, p):
        return (p + 1, []) if self.compare(p, lambda b: b in e[1]) else None

    def match_bytes(self, e, p):
        for offset, byte in enumerate(e[1]):
            if not self.compare(p + offset, lambda b: b == byte):
                return None
        return p + len(e[1]), []

    def match_act(self, e, p):
        return p, [("act", e[1])]

    def match_open(self, e, p):
        return p, [("open", p)]

    def match_close(self, e, p):
        return p, [("close", p)]

    def match_name(self, e, p):
        return self.match(self.rules[e[1]], p)

    def match_seq(self, e, p):
        events = []
        for member in e[1]:
            found = self.match(member, p)
            if not found:
                return None
            p, events = found[0], events + found[1]
        return p, events

    def match_choice(self, e, p):
        for alternative in e[1]:
            found = self.match(alternative, p)
            if found:
                return found
        return None

    def match_opt(self, e, p):
        return self.match(e[1], p) or (p, [])

    def match_star(self, e, p):
        events = []
        while found := self.match(e[1], p):
            p, events = found[0], events + found[1]
        return p, events

    def match_plus(self, e, p):
        return self.match_seq(("seq", [e[1], ("star", e[1])]), p)

    def match_and(self, e, p):
        return (p, []) if self.match(e[1], p) else None

    def match_not(self, e, p):
        return None if self.match(e[1], p) else (p, [])


WORD, ESCAPE = rb"[A-Za-z0-9_]+", rb"\\(?:[ntr\\]|x[0-9A-Fa-f]{2})"
LETTERS = {b"\\n": b"\n", b"\\t": b"\t", b"\\r": b"\r", b"\\\\": b"\\"}


def filled(template, words, is_escaped):
    """Returns a template with these words replaced, and escapes by their bytes if they count."""
    def stands_for(found):
        if found[0].startswith(b"\\"):
            return LETTERS.get(found[0]) or bytes([int(found[0][2:], 16)])
        return words.get(found[0], found[0])
    return re.sub(ESCAPE + b"|" + WORD if is_escaped else WORD, stands_for, template)


def text_of(events, unit, raw, is_escaped):
    """Returns what a unit's actions print."""
    start, capture, printed = None, b"", []
    for kind, value in events:
        if kind == "open":
            start = value
        elif kind == "close":
            capture = capture if start is None else unit[start:value]
        else:
            template = value if raw else value.strip(b" \t\r\n")
            words = {b"yytext": capture, b"yyleng": b"%d" % len(capture)}
            printed.append(filled(template, words, is_escaped))
            printed.append(b"" if raw else b"\n")
    return b"".join(printed)


def run_units(rules, start, text, limit, raw, is_whole, is_escaped, budget):
    """Returns the output, the message, the status, and how many units were tried: one if it is to be the whole text."""
    place, printed, tried = 0, [], 0
    while True:
        matcher = Matcher(rules, text[place:])
        found = matcher.match(rules[start], 0)
        tried += 1
        if matcher.looked > limit:
            return b"".join(printed), b"unit at byte %d longer than %d bytes\n" % (place, limit), 3, tried
        if found:
            printed.append(text_of(found[1], text[place:], raw, is_escaped))
            if budget is not None and len(printed[-1]) > budget:
                message = b"unit at byte %d prints more than %d bytes\n" % (place, budget)
                return b"".join(printed[:-1]), message, 3, tried
            place += found[0]
        if not found or found[0] == 0 or is_whole:
            break
    ended = place == len(text) and not (is_whole and not found)
    return b"".join(printed), b"" if ended else b"no match at byte %d\n" % place, 0 if ended else 1, tried


def parts(e):
    """Returns the expressions right inside an expression."""
    if e[0] in ("seq", "choice"):
        return e[1]
    return [e[1]] if e[0] in ("star", "plus", "opt", "and", "not") else []


def walk(e):
    """Yields an expression and all inside it, from left to right."""
    yield e
    for part in parts(e):
        yield from walk(part)


def names_in(e):
    return [it[1] for it in walk(e) if it[0] == "name"]


def is_nullable(e, rules):
    """Returns whether an expression may take nothing, where `rules` are the names of the rules that may."""
    kind = e[0]
    if kind == "bytes":
        return e[1] == b""
    if kind == "name":
        return e[1] in rules
    if kind == "plus":
        return is_nullable(e[1], rules)
    if kind == "seq":
        return all(is_nullable(it, rules) for it in e[1])
    if kind == "choice":
        return any(is_nullable(it, rules) for it in e[1])
    return kind not in ("any", "set")


def nullable_rules(rules):
    """Returns the least set of rules that may take nothing."""
    found = set()
    while True:
        more = {name for name, body in rules.items() if is_nullable(body, found)}
        if more == found:
            return found
        found = more


def left_names(e, nullable):
    """Returns the names that an expression may call before it takes a byte."""
    if e[0] == "name":
        return {e[1]}
    found = set()
    for part in parts(e):
        found |= left_names(part, nullable)
        if e[0] == "seq" and not is_nullable(part, nullable):
            break
    return found


def left_recursive(rules, nullable):
    """Returns the rules from which left steps lead back to them."""
    steps = {name: left_names(body, nullable) for name, body in rules.items()}
    while True:
        more = {name: to.union(*(steps.get(it, set()) for it in to)) for name, to in steps.items()}
        if more == steps:
            return {name for name, to in steps.items() if name in to}
        steps = more


def loops(body, nullable):
    return any(e[0] in ("star", "plus") and is_nullable(e[1], nullable) for e in walk(body))


def first_bodies(grammar):
    """Returns the first body of each name, and the names that are defined again."""
    rules, again = {}, set()
    for name, body in grammar:
        if name in rules:
            again.add(name)
        else:
            rules[name] = body
    return rules, again


def notes_on(grammar, start):
    """Returns the lines of the notes on a grammar, and whether one of them rejects it."""
    rules, again = first_bodies(grammar)
    used = [it for body in rules.values() for it in names_in(body)]
    first = next(iter(rules)) if start is None else start
    nullable = nullable_rules(rules)
    left = left_recursive(rules, nullable)
    refusing = [f"rule '{it}' redefined" for it in rules if it in again]
    uses = ([] if start is None else [start]) + used
    refusing += [f"rule '{it}' used but not defined" for it in dict.fromkeys(uses) if it not in rules]
    unused = [f"rule '{it}' defined but not used" for it in rules if it != first and it not in used]
    after = [f"possible infinite left recursion in rule '{it}'" for it in rules if it in left]
    after += [f"possible infinite loop in rule '{it}'" for it in rules if loops(rules[it], nullable)]
    lines = refusing + unused + after
    return "".join(it + "\n" for it in lines).encode(), bool(refusing or after)


def answer(grammar, text, limit, start, raw, is_whole=False, is_escaped=False, budget=None):
    """Returns the output, the error output, the status, and how many units were tried; a rejected grammar is one."""
    reported, refused = notes_on(grammar, start)
    if refused:
        return b"", reported, 2, 1
    rules, _ = first_bodies(grammar)
    first = start or next(iter(rules))
    out, message, status, tried = run_units(rules, first, text, limit, raw, is_whole, is_escaped, budget)
    return out, reported + message, status, tried
