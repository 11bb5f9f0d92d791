#!/usr/bin/env python3
"""Reads what lines.py writes, an ABNF grammar, a byte 0 and lines, and writes rules over numbers for marpa.c, and the
lines.

Alternatives that are sets of bytes are one terminal. A repetition without an upper bound, of what is never empty, is a
sequence of libmarpa. Output: the numbers of terminals and of symbols; for each terminal a line of 256 digits, 1 where
the byte is in it; for each rule a line, `r LHS RHS..` or `s LHS RHS MIN`; an empty line; then the lines.
"""
import re
import sys

TOKEN = re.compile(rb'\s+|;[^\n]*|"([^"]*)"|%([xd])([0-9A-Fa-f.-]+)|([A-Za-z][A-Za-z0-9-]*)|(\d*\*\d*|\d+)|([()\[\]/])')


class Reader:
    def __init__(self, text):
        self.rules = {}
        joined = re.sub(rb"\n[ \t]+", b" ", text)
        for line in joined.split(b"\n"):
            found = re.match(rb"([A-Za-z][A-Za-z0-9-]*)\s*=(/?)\s*(.*)", line)
            if found:
                self.words = [m for m in TOKEN.finditer(found.group(3)) if m.lastindex]
                self.at = 0
                body = self.alternation()
                assert self.at == len(self.words), line
                self.rules[found.group(1).upper().decode()] = body

    def peek(self):
        return self.words[self.at] if self.at < len(self.words) else None

    def alternation(self):
        out = [self.concatenation()]
        while self.peek() and self.peek().group(6) == b"/":
            self.at += 1
            out.append(self.concatenation())
        return out[0] if len(out) == 1 else ("alt", out)

    def concatenation(self):
        out = []
        while self.peek() and self.peek().group(6) not in (b"/", b")", b"]"):
            out.append(self.repetition())
        return out[0] if len(out) == 1 else ("cat", out)

    def repetition(self):
        least, most = 1, 1
        if self.peek().group(5):
            text = self.peek().group(5).decode()
            self.at += 1
            if "*" in text:
                a, b = text.split("*")
                least, most = int(a or 0), int(b) if b else None
            else:
                least = most = int(text)
            return ("rep", least, most, self.element())
        return self.element()

    def element(self):
        m = self.peek()
        self.at += 1
        if m.group(1) is not None:
            return ("cat", [("set", frozenset({c, *bytes([c]).lower(), *bytes([c]).upper()})) for c in m.group(1)])
        if m.group(2):
            base = 16 if m.group(2) == b"x" else 10
            text = m.group(3).decode()
            if "-" in text:
                a, b = (int(it, base) for it in text.split("-"))
                return ("set", frozenset(range(a, min(b, 255) + 1)))
            return ("cat", [("set", frozenset({int(it, base)})) for it in text.split(".")])
        if m.group(4):
            return ("name", m.group(4).upper().decode())
        if m.group(6) == b"(":
            inner = self.alternation()
            self.at += 1
            return inner
        assert m.group(6) == b"[", m
        inner = self.alternation()
        self.at += 1
        return ("rep", 0, 1, inner)


class Writer:
    def __init__(self, rules):
        self.rules, self.sets, self.names, self.count, self.out = rules, {}, {}, 0, []
        self.nullable = set()
        grown = True
        while grown:
            grown = False
            for key, body in rules.items():
                if key not in self.nullable and self.is_null(body):
                    self.nullable.add(key)
                    grown = True

    def is_null(self, e):
        if e[0] == "set":
            return False
        if e[0] == "name":
            return e[1] in self.nullable
        if e[0] == "cat":
            return all(self.is_null(it) for it in e[1])
        if e[0] == "alt":
            return any(self.is_null(it) for it in e[1])
        return e[1] == 0 or self.is_null(e[3])

    def fresh(self):
        self.count += 1
        return ("new", self.count)

    def set_of(self, e):
        """Sets of bytes that are alternatives are one set."""
        if e[0] == "set":
            return e[1]
        if e[0] == "cat" and len(e[1]) == 1:
            return self.set_of(e[1][0])
        if e[0] == "alt":
            found = [self.set_of(it) for it in e[1]]
            return frozenset().union(*found) if all(it is not None for it in found) else None
        return None

    def symbol(self, e):
        if self.set_of(e) is not None:
            return ("set", self.set_of(e))
        if e[0] == "name":
            return e
        made = self.fresh()
        self.rule(made, e)
        return made

    def rule(self, lhs, e):
        if self.set_of(e) is not None or e[0] == "name":
            self.out.append(("r", lhs, [self.symbol(e)]))
        elif e[0] == "cat":
            self.out.append(("r", lhs, [self.symbol(it) for it in e[1]]))
        elif e[0] == "alt":
            for it in e[1]:
                self.rule(lhs, it)
        else:
            self.repeat(lhs, *e[1:])

    def repeat(self, lhs, least, most, e):
        one = self.symbol(e)
        if most is None and least < 2 and not self.is_null(e):
            alone = self.fresh()
            self.out.append(("s", alone, [one], least))
            self.out.append(("r", lhs, [alone]))
            return
        if most is None:
            more = self.fresh()
            self.out += [("r", more, []), ("r", more, [more, one])]
            self.out.append(("r", lhs, [one] * least + [more]))
            return
        tail = None
        for _ in range(most - least):
            made = self.fresh()
            self.out += [("r", made, []), ("r", made, [one] + ([tail] if tail else []))]
            tail = made
        self.out.append(("r", lhs, [one] * least + ([tail] if tail else [])))


def main():
    text, lines = sys.stdin.buffer.read().split(b"\0", 1)
    rules = Reader(text).rules
    w = Writer(rules)
    first = next(iter(rules))
    reached, left = set(), [first]
    while left:
        key = left.pop()
        if key in reached:
            continue
        reached.add(key)
        before = len(w.out)
        w.rule(("name", key), rules[key])
        left += [s[1] for it in w.out[before:] for s in it[2] if s[0] == "name"]
    ids = {}
    sets = []
    for it in w.out:
        for s in it[2]:
            if s[0] == "set" and s not in ids:
                ids[s] = len(ids)
                sets.append(s[1])
    count = len(ids)
    for s in [("name", first), *(s for it in w.out for s in (it[1], *it[2]))]:
        ids.setdefault(s, len(ids))
    body = [" ".join(map(str, [it[0], ids[it[1]], *(ids[s] for s in it[2]), *it[3:]])) for it in w.out]
    out = sys.stdout.buffer
    out.write(f"{count} {len(ids)}\n".encode())
    for s in sets:
        out.write("".join("1" if b in s else "0" for b in range(256)).encode() + b"\n")
    out.write("\n".join(body).encode() + b"\n\n" + lines)


main()
