"""The short lists of symbols that the rules of a grammar (slow_abnf.py) derive, as sets, and their order."""
import collections

import slow_abnf


def line_key(letters):
    """Returns what orders lines: shorter ones first, then %x21-7E, the space, and others by number."""
    return len(letters), [it if 33 <= it <= 126 else 127 if it == 32 else 128 + it for it in letters]


def bounds_in(e):
    """Yields where the sets of letters of an element begin, and what follows their ends."""
    for it in slow_abnf.walk(e):
        if it[0] == "text":
            for c in it[1]:
                for other in {c, ord(chr(c).swapcase())} if c < 128 else {c}:
                    yield from (other, other + 1)
        elif it[0] == "values":
            for v in it[1]:
                yield from (v, v + 1)
        elif it[0] == "range":
            yield from (it[1], it[2] + 1)


def is_taken(e, letter):
    """Returns whether a part of the element takes a letter."""
    return any(
        it[0] == "text" and any(slow_abnf.lower(c) == slow_abnf.lower(letter) for c in it[1])
        or it[0] == "values" and letter in it[1] or it[0] == "range" and it[1] <= letter <= it[2]
        for it in slow_abnf.walk(e)
    )


def samples(bodies, is_utf8):
    """Returns the first letter of each class of letters that the elements take."""
    bounds = {0, 32, 33, 127, 0xE000} | {it for body in bodies for it in bounds_in(body)}
    return sorted(it for it in bounds
                  if slow_abnf.is_letter(it, is_utf8) and any(is_taken(body, it) for body in bodies))


def sets_in(e):
    """Yields the sets of letters of an element, each as a test: of a letter of a text, of a value, of a range. A
    repetition with reversed bounds has none."""
    kind = e[0]
    if kind == "text":
        for c in e[1]:
            yield (lambda it, c=c: it == c) if e[2] else lambda it, c=c: slow_abnf.lower(it) == slow_abnf.lower(c)
    elif kind == "values":
        for v in e[1]:
            yield lambda it, v=v: it == v
    elif kind == "range":
        yield lambda it: e[1] <= it <= e[2]
    elif kind in ("concat", "alt"):
        for part in e[1]:
            yield from sets_in(part)
    elif kind == "opt":
        yield from sets_in(e[1])
    elif kind == "rep" and (e[2] is None or e[1] <= e[2]):
        yield from sets_in(e[3])


def first_alike(bodies, is_utf8, end):
    """Returns the letters before which, in the order of lines, none comes that is in the same sets of all elements."""
    bounds = {0, 32, 33, 127, 0xE000, end, end + 1} | {it for body in bodies for it in bounds_in(body)}
    sets, first = [test for body in bodies for test in sets_in(body)], {}
    for letter in sorted(bounds, key=lambda it: line_key([it])):
        if letter != end and slow_abnf.is_letter(letter, is_utf8):
            first.setdefault(tuple(test(letter) for test in sets), letter)
    return [letter for held, letter in first.items() if any(held)]


class ShortLists:
    """The lists of at most so many of some letters that rules derive."""

    def __init__(self, rules, letters, longest):
        self.rules, self.letters, self.longest = rules.all, letters, longest
        self.found = collections.defaultdict(set)

    def derived(self, key):
        """Returns those of a rule: the least sets, by rounds until none grows."""
        keys = self.wanted(key)
        while True:
            before = {it: len(self.found[it]) for it in keys}
            for it in keys:
                self.found[it] |= self.lists(self.rules[it])
            if before == {it: len(self.found[it]) for it in keys}:
                return self.found[key]

    def wanted(self, key):
        found, left = set(), [key]
        while left:
            it = left.pop()
            if it not in found:
                found.add(it)
                left += [other.upper() for other in slow_abnf.names_in(self.rules[it])]
        return found

    def joined(self, first, second):
        return {u + v for u in first for v in second if len(u) + len(v) <= self.longest}

    def lists(self, e):
        return getattr(self, "lists_" + e[0])(e)

    def lists_text(self, e):
        ends = {()}
        for c in e[1]:
            taken = {(it,) for it in self.letters
                     if it == c or not e[2] and slow_abnf.lower(it) == slow_abnf.lower(c)}
            ends = self.joined(ends, taken)
        return ends

    def lists_values(self, e):
        is_short = len(e[1]) <= self.longest
        return {tuple(e[1])} if is_short and all(it in self.letters for it in e[1]) else set()

    def lists_range(self, e):
        return {(it,) for it in self.letters if e[1] <= it <= e[2]} if self.longest else set()

    def lists_concat(self, e):
        ends = {()}
        for part in e[1]:
            ends = self.joined(ends, self.lists(part))
        return ends

    def lists_alt(self, e):
        return set().union(*map(self.lists, e[1]))

    def lists_opt(self, e):
        return {()} | self.lists(e[1])

    def lists_rep(self, e):
        _, least, most, part = e
        if most is not None and most < least:
            return set()
        turn, ends = self.lists(part), {()}
        for _ in range(least):
            before, ends = ends, self.joined(ends, turn)
            if ends == before:  # as after each further turn
                break
        found, count = set(ends), least
        while most is None or count < most:
            ends, count = self.joined(ends, turn), count + 1
            if ends <= found:  # and so after each further turn
                break
            found |= ends
        return found

    def lists_name(self, e):
        return self.found[e[1].upper()]
