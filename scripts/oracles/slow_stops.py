"""Slow answers to what explains how a run of pegi stops. It shares nothing with the crates.

A unit is matched anew by recursion over its expressions, and each comparison that fails outside of `!` is kept: the
byte where it differs, the comparison, by its number in the grammar, and where it began.
"""
import slow_faults
import slow_peg

MOST, SHOWN, HALF = 16, 72, 36
LETTERS = {7: "\\a", 8: "\\b", 27: "\\e", 12: "\\f", 10: "\\n", 13: "\\r", 9: "\\t", 11: "\\v"}


class Failures(slow_peg.Matcher):
    """A matcher that keeps the failures of comparisons outside of `!`; numbers are those of its rules' leaves."""

    def __init__(self, rules, text, numbers):
        super().__init__(rules, text)
        self.numbers, self.found, self.denials = numbers, set(), 0

    def note(self, e, begin, place):
        if not self.denials:
            self.found.add((place, self.numbers[id(e)], begin))

    def leaf(self, e, p, matched):
        if matched is None:
            self.note(e, p, p)
        return matched

    def match_any(self, e, p):
        return self.leaf(e, p, super().match_any(e, p))

    def match_set(self, e, p):
        return self.leaf(e, p, super().match_set(e, p))

    def match_bytes(self, e, p):
        matched = super().match_bytes(e, p)
        if matched is None:
            same = (at for at, byte in enumerate(e[1]) if self.text[p + at:p + at + 1] != bytes([byte]))
            self.note(e, p, p + next(same))
        return matched

    def match_not(self, e, p):
        self.denials += 1
        found = super().match_not(e, p)
        self.denials -= 1
        return found


def byte_text(byte, octal, marked):
    """Returns a byte as the canonical text of a grammar writes it."""
    if byte in LETTERS:
        return LETTERS[byte]
    if not 32 <= byte <= 126 or chr(byte) in octal:
        return "\\%03o" % byte
    return "\\" * (chr(byte) in marked) + chr(byte)


def class_text(members):
    """Returns the canonical text of a class: the runs of its members, or of the others where byte 255 is a member."""
    front, some = ("^", set(range(256)) - members) if 255 in members else ("", members)
    reported = "[" + front
    for first in sorted(it for it in some if it - 1 not in some):
        last = next(it for it in range(first, 257) if it + 1 not in some)
        ends = [byte_text(it, "-^", "[\\]") for it in sorted({first, last})]
        reported += ("-" if last > first + 1 else "").join(ends)
    return reported + "]"


def leaf_text(e):
    if e[0] == "any":
        return "."
    return class_text(e[1]) if e[0] == "set" else '"' + "".join(byte_text(it, "", '"\\') for it in e[1]) + '"'


def distances(rules, start):
    """Returns how many uses lead to each rule from the start rule at least."""
    found, edge = {start: 0}, [start]
    while edge:
        edge = sorted({name for rule in edge for name in slow_peg.names_in(rules[rule])} - set(found))
        found.update(dict.fromkeys(edge, 1 + max(found.values())))
    return found


def cut(text):
    return slow_faults.shown(text.encode("latin-1")[:60]) + ".." * (len(text) > 60)


def fresh(e):
    """Returns a copy of an expression of which no part is another part too."""
    return (e[0], *([fresh(it) for it in part] if isinstance(part, list) else fresh(part) if isinstance(part, tuple)
                    else part for part in e[1:]))


def leaves(rules):
    """Returns the comparisons of a grammar in order, each with its rule's name."""
    return [(e, name) for name, body in rules.items() for e in slow_peg.walk(body) if e[0] in ("any", "bytes", "set")]


def picture(line, before):
    """Returns a line of a text with a caret below the byte after so many."""
    front = min(max(before - HALF, 0), len(line) - SHOWN) if len(line) > SHOWN else 0
    left = ".." * (front > 0) + slow_faults.shown(line[front:before])
    right = slow_faults.shown(line[before:front + SHOWN]) + ".." * (len(line) > front + SHOWN)
    return f"  {left}{right}\n  {' ' * len(left)}^\n"


def position(text, place):
    return f"line {text.count(10, 0, place) + 1}, column {place - text.rfind(10, 0, place)}"


class Explained:
    """What explains the stops of a run: of an input of which so many bytes are taken."""

    def __init__(self, rules, start, taken):
        self.rules, self.start, self.taken = {name: fresh(body) for name, body in rules.items()}, start, taken
        self.leaves = leaves(self.rules)

    def takes_nothing(self, unit):
        found = slow_peg.Matcher(self.rules, self.taken[unit:]).match(self.rules[self.start], 0)
        return found is not None and found[0] == 0

    def listed(self, failures):
        """Returns what is reported of failures, each the number of a leaf and where it began: the expression, where it
        began, and its rule, in order and once.
        """
        far, order = distances(self.rules, self.start), list(self.rules)
        kinds = ["bytes", "set", "any"]

        def key(failure):
            e, name = self.leaves[failure[0]]
            return far[name], order.index(name), kinds.index(e[0]), *failure

        some = [(leaf_text(self.leaves[it[0]][0]), it[1], self.leaves[it[0]][1]) for it in sorted(failures, key=key)]
        return list(dict.fromkeys(some))

    def farthest(self, unit):
        """Returns where the unit that begins there fails farthest, with all that fails there; none if nothing does."""
        numbers = {id(e): number for number, (e, _) in enumerate(self.leaves)}
        matcher = Failures(self.rules, self.taken[unit:], numbers)
        matcher.match(self.rules[self.start], 0)
        place = max((it[0] for it in matcher.found), default=None)
        return None if place is None else (unit + place, unit, sorted(it[1:] for it in matcher.found if it[0] == place))

    def no_match(self, before, last):
        """Returns the lines after `no match`, of the last unit, which begins there, and the one before it, if any."""
        found = [it for it in (self.farthest(last), None if before is None else self.farthest(before)) if it]
        reported = f"  rule '{cut(self.start)}' matched and took no byte\n" if self.takes_nothing(last) else ""
        if not found:
            return reported or '  no comparison failed outside of "!"\n'
        place, unit, failures = max(found, key=lambda it: it[0])
        begin = max(unit, self.taken.rfind(10, 0, place) + 1)
        line = self.taken[begin:].partition(b"\n")[0]
        end = ", the end of the input" if place == len(self.taken) else ""
        reported += f"  byte {place}, {position(self.taken, place)}{end}, in the unit at byte {unit}\n"
        reported += picture(line, place - begin) if line else ""
        listed = self.listed(failures)
        for text, begun, name in listed[:MOST]:
            where = "" if unit + begun == place else f" from byte {unit + begun}"
            reported += f"  expected {cut(text)}{where} in {cut(name)}\n"
        return reported + (f"  and {len(listed) - MOST} more\n" if len(listed) > MOST else "")

    def long_unit(self, place):
        return f"  the unit begins on {position(self.taken, place)}\n  -l allows at most 16777216\n"


def after_stop(grammar, text, limit, start, is_whole=False):
    """Returns the lines after the message of a run that stops since no unit goes on, or since one is too long."""
    rules, _ = slow_peg.first_bodies(grammar)
    start = start or next(iter(rules))
    before, place = None, 0
    while True:
        matcher = slow_peg.Matcher(rules, text[place:])
        found = matcher.match(rules[start], 0)
        if not found or found[0] == 0 or matcher.looked > limit:
            break
        before, place = place, place + found[0]
        if is_whole:
            break
    reported = Explained(rules, start, text[:place + limit + 1])
    return (reported.long_unit(place) if matcher.looked > limit else reported.no_match(before, place)).encode("latin-1")
