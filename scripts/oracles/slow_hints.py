"""Slow answers to which hints there are on a grammar in ABNF. It shares nothing with the crates.

Whether a rule derives something, and whether it does without a letter, is decided by how few letters it derives: the
least sums, by rounds until none changes.
"""
import math
import re

import slow_abnf
import slow_faults
from slow_notes import HINTS, cut

BASES = {"x": 16, "d": 10, "b": 2}


class Reader:
    """Reads the tokens of a text that spells a grammar."""

    def __init__(self, text):
        self.text, self.at = text, 0
        self.tokens = slow_faults.tokens_of(text, slow_faults.ABNF_WHITE, slow_faults.ABNF_TOKENS, False)

    def kind(self, ahead=0):
        return self.tokens[min(self.at + ahead, len(self.tokens) - 1)].kind

    def take(self):
        self.at += 1
        return self.tokens[self.at - 1]

    def begins_rule(self):
        return self.kind() == "Name" and self.kind(1) in ("Is", "Adds")

    def definitions(self):
        """Returns the definitions, each with the reversed numbers of its body and their lines."""
        found = []
        while self.kind() != "End":
            name, adds, begin = self.take().text.decode(), self.take().kind == "Adds", self.at
            body = self.either()
            found.append((name, adds, body, self.reversed_from(begin)))
        return found

    def reversed_from(self, begin):
        tokens = [it for it in self.tokens[begin:self.at] if it.kind in ("Num", "Repeat")]
        return [(it.text, self.text[:it.start].count(b"\n") + 1) for it in tokens if is_reversed(it.text)]

    def either(self):
        parts = [self.sequence()]
        while self.kind() == "Slash":
            self.take()
            parts.append(self.sequence())
        return parts[0] if len(parts) == 1 else ("alt", parts)

    def sequence(self):
        parts = []
        while self.kind() not in ("Slash", "RParen", "RBrack", "End") and not self.begins_rule():
            parts.append(self.repeated())
        return parts[0] if len(parts) == 1 else ("concat", parts)

    def repeated(self):
        if self.kind() != "Repeat":
            return self.element()
        least, star, most = self.take().text.decode().partition("*")
        most = int(most) if most else None if star else int(least)
        return "rep", int(least or 0), most, self.element()

    def element(self):
        token = self.take()
        text = token.text.decode("latin-1")
        if token.kind in ("LParen", "LBrack"):
            inner = self.either()
            self.take()
            return ("opt", inner) if token.kind == "LBrack" else inner
        if token.kind == "Text":
            return "text", token.text[token.text.index(b'"') + 1:-1], text[:2].lower() == "%s"
        if token.kind == "Num":
            low, dash, high = text[2:].partition("-")
            if dash:
                return "range", number(text[1], low), number(text[1], high)
            return "values", [number(text[1], it) for it in text[2:].split(".")]
        return ("name", text) if token.kind == "Name" else ("prose", text)


def is_reversed(token):
    ends = re.fullmatch(rb"(?:%(.))?(\w+)[-*](\w+)", token)
    return bool(ends) and number(ends[1] or b"d", ends[2]) > number(ends[1] or b"d", ends[3])


def number(letter, digits):
    return int(digits, BASES[letter.decode().lower() if isinstance(letter, bytes) else letter.lower()])


def fewest(e, known, is_letter):
    """Returns how few letters an element derives, given that of the rules; infinitely many if it derives nothing."""
    if e[0] == "text":
        spelled = [{it} if e[2] else {it, ord(chr(it).swapcase()) if chr(it).isascii() else it} for it in e[1]]
        return len(spelled) if all(any(map(is_letter, it)) for it in spelled) else math.inf
    if e[0] == "values":
        return len(e[1]) if all(map(is_letter, e[1])) else math.inf
    if e[0] == "range":
        tried = {e[1] + step for step in range(3)} | {0xE000, 0xE001}
        return 1 if any(e[1] <= it <= e[2] and is_letter(it) for it in tried) else math.inf
    if e[0] == "concat":
        return sum(fewest(it, known, is_letter) for it in e[1])
    if e[0] == "alt":
        return min(fewest(it, known, is_letter) for it in e[1])
    if e[0] == "rep":
        _, least, most, part = e
        return math.inf if most is not None and most < least else least and least * fewest(part, known, is_letter)
    if e[0] == "opt":
        return 0
    return known[e[1].upper()] if e[0] == "name" and e[1].upper() in known else math.inf


def fewest_of(rules, is_letter):
    """Returns how few letters each rule derives."""
    known = dict.fromkeys(rules, math.inf)
    while True:
        new = {it: fewest(body, known, is_letter) for it, body in rules.items()}
        if new == known:
            return known
        known = new


def is_whole(rules, key):
    """Returns whether a rule reaches no prose, and no name that no rule has."""
    return all(it in rules.all and not slow_abnf.has_prose(rules.all[it]) for it in slow_abnf.reached(rules, key))


def reported(some):
    return "".join(some[:HINTS]) + (f"  and {len(some) - HINTS} more\n" if len(some) > HINTS else "")


def abnf_hints(text, start, letters, end):
    """Returns the hints on a grammar, of which a text and perhaps the name of the judged rule are given. The letters
    are `bytes` or `utf8`; `end` is the byte that ends a line, if no line holds it.
    """
    definitions = Reader(text).definitions()
    rules = slow_abnf.Rules([it[:3] for it in definitions])
    is_utf8 = letters == "utf8"
    some = fewest_of(rules.all, lambda it: slow_abnf.is_letter(it, is_utf8))
    lines = {}
    for name, line in places(text):
        lines.setdefault(name.upper(), (name, line))
    barren = [f"rule '{cut(rules.spelled[it].encode())}' derives nothing\n"
              f"  line {lines[it][1]}: '{cut(lines[it][0].encode())}' is defined\n"
              for it in rules.file if some[it] == math.inf and is_whole(rules, it)]
    turned = [f"reversed numbers in rule '{cut(name.encode())}'\n  line {line}: {cut(token)} derives nothing\n"
              for name, _, _, ranges in definitions for token, line in ranges]
    judged = (start or next(iter(rules.file))).upper()
    spared = fewest_of(rules.all, lambda it: slow_abnf.is_letter(it, is_utf8) and it != end)
    last = ""
    may_be_reported = end is not None and judged in rules.all
    if may_be_reported and some[judged] < math.inf == spared[judged] and is_whole(rules, judged):
        last = (f"rule '{cut(rules.spelled.get(judged, judged).encode())}' derives no line\n"
                f"  all that it derives holds %x{end:02X}\n"
                + ("  with -k, a line keeps its %x0A\n  with -z, records end with %x00 and may hold %x0A\n"
                   if end == 10 else ""))
    return (reported(barren) + reported(turned) + last).encode("latin-1")


def places(text):
    """Yields the names that are defined, each with its line."""
    tokens = slow_faults.tokens_of(text, slow_faults.ABNF_WHITE, slow_faults.ABNF_TOKENS, False)
    for token, after in zip(tokens, tokens[1:]):
        if token.kind == "Name" and after.kind in ("Is", "Adds"):
            yield token.text.decode(), text[:token.start].count(b"\n") + 1
