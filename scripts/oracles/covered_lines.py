"""The goals of a grammar's rules (slow_abnf.py) as texts, and the short lines of symbols that reach them, as sets."""
import collections
import math

import slow_abnf
from short_lists import ShortLists

RANKS = {"alt": 0, "concat": 1, "rep": 2}
WORDS = {"first": "first of ", "last": "last of ", "other": "other case of ", "taken": " taken", "left": " left out"}


def around(e, rank):
    """Returns the canonical text of an element, in parentheses if it holds together less tightly than so."""
    text = canonical(e)
    return f"({text})" if RANKS.get(e[0], 3) < rank else text


def turns_text(least, most):
    low = str(least) if least else ""
    return str(most) if least == most else low + "*" + ("" if most is None else str(most))


def canonical(e):
    """Returns the canonical text of an element."""
    if e[0] == "text":
        return ("%s" if e[2] else "") + '"' + e[1].decode() + '"'
    if e[0] == "values":
        return "%x" + ".".join(f"{it:02X}" for it in e[1])
    if e[0] == "range":
        return f"%x{e[1]:02X}-{e[2]:02X}"
    if e[0] == "concat":
        return " ".join(around(it, 2) for it in e[1])
    if e[0] == "alt":
        return " / ".join(around(it, 1) for it in e[1])
    if e[0] == "rep":
        return turns_text(e[1], e[2]) + around(e[3], 3)
    return f"[{canonical(e[1])}]" if e[0] == "opt" else e[1]


def turn_counts(least, most):
    """Returns which numbers of iterations of a repetition are goals."""
    if most is None:
        return [least, least + 1]
    return [least] + [most] * (most != least) + [1] * (least == 0 and most > 1)


def ways(e):
    """Returns the ways of an element that are goals, in order."""
    if e[0] == "alt":
        return [f"chosen {i}" for i in range(len(e[1]))]
    if e[0] == "rep":
        return [f"turns {it}" for it in turn_counts(e[1], e[2])]
    if e[0] == "text":
        return ["same"] + ["other"] * (not e[2] and e[1].swapcase() != e[1])
    return {"opt": ["taken", "left"], "range": ["first", "last"], "values": ["same"]}.get(e[0], [])


def goals_in(e, place):
    """Yields the goals within an element, its own first: their places, with their ways, and their elements."""
    for way in ways(e):
        yield (*place, way), e
    for i, part in enumerate(slow_abnf.parts(e)):
        yield from goals_in(part, (*place, i))


def goal_text(e, way):
    """Returns what an element does in the way of a goal."""
    kind, _, number = way.partition(" ")
    if kind == "chosen":
        return "alternative " + canonical(e[1][int(number)])
    if kind == "turns":
        return f"{number} turns of {canonical(e)}"
    return canonical(e) + WORDS[kind] if kind in ("taken", "left") else WORDS.get(kind, "") + canonical(e)


def all_goals(rules, key):
    """Returns the goals of the rules to which names lead from a rule, by their places, with their texts: in the order
    of the rules and of the places."""
    near = slow_abnf.reached(rules, key)
    return {goal: f"{goal_text(e, goal[-1])} in {rules.spelled.get(it, it)}"
            for it, body in rules.all.items() if it in near for goal, e in goals_in(body, (it,))}


class Reached(ShortLists):
    """The lists that the rules derive, each with the goals that some derivation of it reaches."""

    def goal_lists(self, key):
        """Returns of each goal the lists that reach it: the least sets, by rounds until none grows."""
        self.derived(key)
        found, keys = collections.defaultdict(lambda: collections.defaultdict(set)), self.wanted(key)
        while True:
            before = self.size(found)
            for it in keys:
                for goal, lists in self.goals(self.rules[it], (it,), found).items():
                    found[it][goal] |= lists
            if before == self.size(found):
                return found[key]

    def size(self, found):
        return sum(len(lists) for goals in found.values() for lists in goals.values())

    def goals(self, e, place, found):
        """Returns of each goal the lists of an element that reach it."""
        reached = collections.defaultdict(set)
        for way, lists in self.own(e):
            reached[place + (way,)] |= lists
        for goal, lists in getattr(self, "inner_" + e[0], self.inner)(e, place, found):
            reached[goal] |= lists
        return reached

    def inner(self, e, place, found):
        return ()

    def inner_name(self, e, place, found):
        return found[e[1].upper()].items()

    def inner_opt(self, e, place, found):
        return self.goals(e[1], place + (0,), found).items()

    def inner_alt(self, e, place, found):
        for i, part in enumerate(e[1]):
            yield from self.goals(part, place + (i,), found).items()

    def inner_concat(self, e, place, found):
        for i, part in enumerate(e[1]):
            front = self.lists(("concat", e[1][:i]))
            back = self.lists(("concat", e[1][i + 1:]))
            for goal, lists in self.goals(part, place + (i,), found).items():
                yield goal, self.joined(self.joined(front, lists), back)

    def inner_rep(self, e, place, found):
        _, least, most, part = e
        if most is not None and (most < least or most == 0):
            return
        turn = self.lists(part)
        for goal, lists in self.goals(part, place + (0,), found).items():
            yield goal, self.turned(turn, lists, least, math.inf if most is None else most)

    def turned(self, turn, lists, least, most):
        """Returns what so many turns derive, one of which gives one of the lists. Empty turns count at the end."""
        states, found = [((), 0, False)], {((), 0, False)}
        while states:
            w, count, has = states.pop()
            for other, gives in [(it, has) for it in turn if it] + [(it, True) for it in lists if it]:
                step = (w + other, count + 1, gives)
                if count < most and len(step[0]) <= self.longest and step not in found:
                    found.add(step)
                    states.append(step)
        reached = {w for w, count, has in found if has and (count >= least or () in turn)}
        return reached | {w for w, count, has in found if count < most and () in lists}

    def own(self, e):
        """Yields the ways in which an element may derive a list, and the lists."""
        if e[0] == "alt":
            for i, part in enumerate(e[1]):
                yield f"chosen {i}", self.lists(part)
        elif e[0] == "opt":
            yield "taken", self.lists(e[1])
            yield "left", {()}
        elif e[0] == "rep":
            _, least, most, part = e
            counts = {least, least + 1} if most is None else {least, most, 1}
            for count in sorted(counts):
                if least <= count and (most is None or count <= most):
                    yield f"turns {count}", self.lists(("rep", count, count, part))
        elif e[0] == "range":
            inside = [it for it in self.letters if e[1] <= it <= e[2]]
            if inside and self.longest:
                yield "first", {(min(inside),)}
                yield "last", {(max(inside),)}
        elif e[0] == "values":
            yield "same", self.lists(e)
        elif e[0] == "text":
            yield "same", self.lists(("text", e[1], True))
            if "other" in ways(e):
                other = bytes(ord(chr(c).swapcase()) if c < 128 else c for c in e[1])
                yield "other", self.lists(("text", other, True))
