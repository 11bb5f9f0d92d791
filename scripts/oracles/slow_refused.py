"""Slow answers to what explains rejected lines. It shares nothing with the crates.

A letter can follow the longest viable prefix of a line if that prefix with the symbol after it is viable. All
letters between two that the rules name behave alike, so that one of them is tried for all.
"""
import functools
import re
import string

import slow_abnf
import slow_faults
import slow_stops

MOST = 16
LIMIT_LINE = "  -l allows at most 16777216\n"


def boundaries(rules):
    """Returns where letters begin that another comparison of the rules reads, in order."""
    found = {0, 0x100, 0xD800, 0xE000, 0x110000}
    for body in rules.all.values():
        for e in slow_abnf.walk(body):
            if e[0] == "text":
                found.update(it + more for c in e[1] for it in {c, ord(chr(c).swapcase())} for more in (0, 1))
            if e[0] == "values":
                found.update(it + more for it in e[1] for more in (0, 1))
            if e[0] == "range":
                found.update({e[1], e[2] + 1})
    return sorted(it for it in found if it <= 0x110000)


class Following:
    """What can stand after the longest viable prefix of a line."""

    def __init__(self, rules, key, is_utf8):
        self.rules, self.key, self.is_utf8 = rules, key, is_utf8
        self.bounds = boundaries(rules)
        self.some = slow_abnf.Deriver(rules, [], self.may_follow)
        self.some.derives(key)

    def may_follow(self, low, high):
        return any(slow_abnf.is_letter(it, self.is_utf8) for it in (low, max(low, 0xE000)) if it <= high)

    def is_viable(self, letters):
        return slow_abnf.Deriver(self.rules, letters, self.may_follow).derives(self.key)

    def is_productive(self, e):
        """Returns whether an element derives some list of symbols."""
        return bool(self.some.after(e, 1))

    @functools.cache
    def is_more(self, key):
        """Returns whether a rule derives a list that is not empty."""
        return bool(Following(self.rules, key, self.is_utf8).runs([]))

    def runs(self, front):
        """Returns the maximal runs of letters that can follow, each by its first and its last."""
        runs = []
        for first, bound in zip(self.bounds, self.bounds[1:]):
            if slow_abnf.is_letter(first, self.is_utf8) and self.is_viable([*front, first]):
                if runs and runs[-1][1] + 1 == first:
                    runs[-1] = (runs[-1][0], bound - 1)
                else:
                    runs.append((first, bound - 1))
        return runs


# The core rules that report a set of symbols, in order, and those of one symbol (RFC 5234, appendix B.1).
SETS = {
    "OCTET": range(0x100),
    "CHAR": range(1, 0x80),
    "VCHAR": range(0x21, 0x7F),
    "ALPHA": string.ascii_letters.encode(),
    "CTL": [*range(0x20), 0x7F],
    "HEXDIG": string.hexdigits.encode(),
    "DIGIT": string.digits.encode(),
    "WSP": b" \t",
}
NAMES = {" ": "SP", "\t": "HTAB", "\r": "CR", "\n": "LF", '"': "DQUOTE"}
PRINTED = re.compile("[\xa1-\xac\xae-\u02ff\u0391-\u03a1\u03a3-\u0482\u048a-\u052f\u3041-\u3096\u30a1-\u30fa"
                     "\u4e00-\u9fff\uac00-\ud7a3]")
GAP = 0xE000 - 0xD800


def symbol(place):
    """Returns the symbol at a place among all symbols: those after the surrogates follow those before."""
    return place if place < 0xD800 else place + GAP


def letter_text(c, single, is_utf8):
    """Returns how a letter is reported; none where its other case reports it."""
    is_case = chr(c).isascii() and chr(c).isalpha()
    other = ord(chr(c).swapcase()) if is_case else None
    if is_case and other in single:
        return f'"{chr(c)}"' if c < other else None
    if is_case:
        return f'%s"{chr(c)}"'
    if chr(c) in NAMES:
        return NAMES[chr(c)]
    if is_utf8 and PRINTED.match(chr(c)):
        return f'"{chr(c)}" (%x{c:02X})'
    return f'"{chr(c)}"' if 33 <= c <= 126 else f"%x{c:02X}"


class Symbols:
    """A set of places: those below 256 one by one, the others as runs."""

    def __init__(self, low, high, is_utf8):
        self.low, self.high, self.is_utf8 = low, high, is_utf8

    def runs(self):
        """Returns the maximal runs of places."""
        found = []
        for first, last in [*((it, it) for it in sorted(self.low)), *self.high]:
            if found and found[-1][1] + 1 == first:
                found[-1] = (found[-1][0], last)
            else:
                found.append((first, last))
        return found

    def terms(self):
        """Returns the terms of ABNF for the set."""
        runs = self.runs()
        single = {symbol(it) for first, last in runs if last <= first + 1 for it in (first, last)}
        reported = []
        for first, last in runs:
            if last <= first + 1:
                reported += [letter_text(symbol(it), single, self.is_utf8) for it in sorted({first, last})]
            else:
                reported.append(f"%x{symbol(first):02X}-{symbol(last):02X}")
        return [it for it in reported if it]

    def cost(self):
        return sum(2 if re.match("%x[0-9A-F]+-", it) else 1 for it in self.terms())

    def without(self, symbols):
        return Symbols(self.low - symbols, self.high, self.is_utf8)


def letters_text(runs, is_utf8):
    """Returns the text for the letters of runs: names of core rules, then terms."""
    def place(c):
        return c if c < 0xD800 else c - GAP
    rest = Symbols({it for first, last in runs for it in range(first, min(last, 0xFF) + 1)},
                   [(place(max(first, 0x100)), place(last)) for first, last in runs if last > 0xFF], is_utf8)
    reported = []
    for name, symbols in SETS.items():
        less = rest.without(set(symbols))
        if set(symbols) <= rest.low and less.cost() <= rest.cost():
            reported.append(name)
            rest = less
    reported += rest.terms()
    return " / ".join(reported[:MOST]) + (f" and {len(reported) - MOST} more" if len(reported) > MOST else "")


def leaf_sets(e):
    """Returns of a terminal what may stand for each of its symbols, as ranges."""
    if e[0] == "range":
        return [[(e[1], e[2])]]
    if e[0] == "values":
        return [[(it, it)] for it in e[1]]
    return [[(c, c)] if e[2] or not chr(c).isalpha() else sorted((it, it) for it in {c, ord(chr(c).swapcase())})
            for c in e[1]]


def set_text(ranges, is_utf8):
    """Returns the text for the symbols of ranges, those that are letters."""
    spans = [(0, 0xD7FF), (0xE000, 0x10FFFF)] if is_utf8 else [(0, 0xFF)]
    return letters_text([(max(low, first), min(high, last)) for low, high in ranges for first, last in spans
                         if max(low, first) <= min(high, last)], is_utf8)


def printed(e):
    """Returns a terminal of several symbols as `-m print` writes it."""
    if e[0] == "values":
        return "%x" + ".".join(f"{it:02X}" for it in e[1])
    return "%s" * e[2] + '"' + e[1].decode("ascii") + '"'


class Awaited:
    """The parts that can come next after the longest viable prefix of a line: in the rules that began before its end,
    names, and terminals with the number of their symbols that are read.
    """

    def __init__(self, following, front):
        self.following, self.rules, self.front, self.size = following, following.rules, front, len(front)
        self.whole = slow_abnf.Deriver(self.rules, front)
        self.whole.derives(following.key)

    def steps(self, e, places):
        """Yields the elements right inside an element, each with its number and the places where it may begin."""
        if e[0] == "concat":
            for number, it in enumerate(e[1]):
                yield number, it, places
                places = self.whole.after(it, places)
        if e[0] == "alt":
            for number, it in enumerate(e[1]):
                yield number, it, places
        if e[0] == "opt":
            yield 0, e[1], places
        if e[0] == "rep":
            turn, seen = 0, set()
            while (e[2] is None or turn < e[2]) and places not in seen:
                yield 0, e[3], places
                seen.add(places)
                turn, places = turn + 1, self.whole.after(e[3], places)

    def inside(self, e, places, site=()):
        """Yields the names and terminals in an element, each with its site and the places where it may begin."""
        if not places or not self.following.is_productive(e):
            return
        if e[0] in ("name", "text", "values", "range"):
            yield e, site, places
        for number, it, starts in self.steps(e, places):
            yield from self.inside(it, starts, (*site, number))

    def begun(self):
        """Returns the rules under way, each with the place where it begins."""
        found, left = set(), {(self.following.key, 0)}
        while left:
            found |= left
            left = {(e[1].upper(), it) for key, place in left
                    for e, _, places in self.inside(self.rules.all[key], 1 << place) if e[0] == "name"
                    for it in range(self.size + 1) if places >> it & 1} - found
        return found

    def counts(self, e, places):
        """Yields how many symbols of a name or a terminal that begins there may be read before the end, but not all."""
        if e[0] == "name" and places >> self.size & 1 and self.following.is_more(e[1].upper()):
            yield 0
        sets = [] if e[0] == "name" else leaf_sets(e)
        for count in range(min(len(sets), self.size + 1)):
            read = zip(self.front[self.size - count:], sets)
            if places >> self.size - count & 1 and all(any(low <= c <= high for low, high in it) for c, it in read):
                yield count

    def text(self, e, count):
        """Returns the text for a part."""
        if e[0] == "name":
            return slow_stops.cut(self.rules.spelled.get(e[1].upper(), e[1].upper()))
        sets = leaf_sets(e)
        if len(sets) == 1:
            return set_text(sets[0], self.following.is_utf8)
        leaf = slow_stops.cut(printed(e))
        return f"{set_text(sets[count], self.following.is_utf8)} of {leaf}" if count else leaf

    def parts(self):
        """Returns the parts, each `TEXT in RULE`, by the order of rules and bodies."""
        order, found = list(self.rules.all), {}
        for key, place in self.begun():
            if place < self.size or (key, place) == (self.following.key, 0):
                for e, site, places in self.inside(self.rules.all[key], 1 << place):
                    found.update({(order.index(key), site, count): e for count in self.counts(e, places)})
        texts = [f"{self.text(e, count)} in {slow_stops.cut(self.rules.spelled.get(order[rule], order[rule]))}"
                 for (rule, _, count), e in sorted(found.items(), key=lambda it: it[0])]
        return list(dict.fromkeys(texts))


def place_in_record(line, front, before):
    """Returns a position of a record: its line and column there, the bytes of that line, and how many are before it."""
    start, stop = line[:before].rfind(b"\n") + 1, line.find(b"\n", before)
    column = front[::-1].index(10) + 1 if 10 in front else len(front) + 1
    return line[:before].count(b"\n") + 1, column, line[start:stop if stop >= 0 else None], before - start


def refusal(following, name, line, number, unit="line"):
    """Returns the lines that explain a rejected line or record of that number."""
    letters, is_text = slow_abnf.letters_of(line, following.is_utf8)
    after = slow_abnf.furthest(following.rules, letters, following.key, following.is_utf8)
    front = letters[:after]
    runs = following.runs(front)
    ends = slow_abnf.Deriver(following.rules, front).derives(following.key)
    if not runs and not ends:
        return f"{unit} {number}: rule '{slow_stops.cut(name)}' derives nothing\n"
    expected, parts = letters_text(runs, following.is_utf8), Awaited(following, front).parts()
    if len(parts) == 1 and parts[0].startswith((f"{expected} in ", f"{expected} of ")):
        expected, parts = parts[0], []
    if ends:
        expected += f" or the end of the {unit}" if runs else f"the end of the {unit}"
    before = len("".join(map(chr, front)).encode()) if following.is_utf8 else after
    place, ended = f"line {number}, letter {after + 1}", f"line {number}"
    if unit == "record":
        row, column, line, before = place_in_record(line, front, before)
        place = ended = f"record {number}, line {row}, column {column}"
    at = f"{place}: expected "
    if after == len(letters):
        at = f"{ended} ends too early: expected " if is_text else f"{place}: not UTF-8, expected "
    picture = slow_stops.picture(line, before) if line else ""
    listed = "".join(f"  {it}\n" for it in parts[:MOST])
    more = f"  and {len(parts) - MOST} more\n" if len(parts) > MOST else ""
    return at + expected + "\n" + picture + listed + more


def after_notes(grammar, given, limit, judged, is_utf8, end, is_kept=False):
    """Returns what a run of a grammar that is not rejected reports after its notes."""
    rules = slow_abnf.Rules(grammar)
    key = (judged or next(iter(rules.file))).upper()
    following, reported, more = Following(rules, key, is_utf8), [], 0
    message = ""
    for number, (line, size) in enumerate(slow_abnf.lines_of(given, end, is_kept), 1):
        if size > limit:
            message = f"line {number} longer than {limit} bytes\n" + LIMIT_LINE
            break
        letters, is_text = slow_abnf.letters_of(line, is_utf8)
        if is_text and slow_abnf.Deriver(rules, letters).derives(key):
            continue
        if len(reported) < MOST:
            unit = "record" if end == b"\0" else "line"
            reported.append(refusal(following, rules.spelled.get(key, key), line, number, unit))
        else:
            more += 1
    if more:
        reported.append(f"more refused lines: {more}\n")
    return ("".join(reported) + message).encode()
