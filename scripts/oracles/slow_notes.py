"""Slow answers to what explains the notes on a grammar. It shares nothing with the crates."""
import re

import random_peg
import slow_abnf
import slow_faults
import slow_peg

# The parts of messages round the name, and how a note of the kind is explained.
KINDS = [("rule '", "' redefined", "redefined"), ("rule '", "' extended before it is defined", "early"),
         ("rule '", "' used but not defined", "undefined"), ("prose in rule '", "'", "prose"),
         ("rule '", "' defined but not used", "unused"), ("possible infinite loop in rule '", "'", "loop"),
         ("possible infinite left recursion in rule '", "'", "left")]
SHOWN, AGAIN, CHAIN, STEPS, WAYS, HINTS, MEANT = 60, 8, 8, 8, 8, 16, 16
# The tokens that are expressions, names left out.
LEAVES = ("Literal", "Class", "Dot", "Action", "Begin", "EndCap")


def cut(name):
    """Returns a name or prose as it is shown: its first 60 bytes, and `..` where it has more."""
    return slow_faults.shown(name[:SHOWN]) + ".." * (len(name) > SHOWN)


class Places:
    """Where a text defines and uses its rules; `key` is what names of one rule have in common."""

    def __init__(self, text, tokens, signs, line_end, key):
        self.key, self.named, self.bodies, self.repeats, self.literals, within = key, {}, {}, {}, {}, None
        self.used, self.around = [], {}
        for before, token, after in zip([None, *tokens], tokens, tokens[1:]):
            line = len(re.findall(line_end, text[:token.start])) + 1
            if token.kind in ("Ident", "Name") and after.kind in signs:
                within = self.begin(token.text, line, after.kind == "Adds")
                continue
            if token.kind == "Ident":
                self.used.append(token.text)
            if token.kind in ("Ident", "Name", "Prose") and within is not None:
                self.bodies[within].append((token.kind == "Prose", token.text, line))
                self.around.setdefault(within, []).append((before, token, after))
            elif token.kind in ("Star", "Plus") and within is not None:
                self.repeats.setdefault(within, []).append(line)
            elif token.kind in LEAVES and within is not None:
                self.literals.setdefault(within, []).append(line)

    def begin(self, name, line, adds):
        """Begins a definition. Returns the rule to whose bodies it belongs; none where it does not stand."""
        rule, is_new = self.key(name), self.key(name) not in self.named
        self.named.setdefault(rule, []).append((name, line, adds))
        self.bodies.setdefault(rule, [])
        return rule if is_new or adds else None

    def definitions(self, kind, name):
        (first, line, _), *others = self.named[self.key(name)]
        reported = f"  line {line}: '{cut(first)}' "
        if kind != "redefined":
            return reported + ("begins with \"=/\"\n" if kind == "early" else "is defined\n")
        others = [(name, line) for name, line, adds in others if not adds]
        more = "".join(f"  line {line}: '{cut(name)}' is defined again\n" for name, line in others[:AGAIN])
        return reported + "is defined\n" + more + (f"  and {len(others) - AGAIN} more\n" if len(others) > AGAIN else "")

    def use(self, name, start):
        if start is not None and self.key(start) == self.key(name):
            return "  given by -s\n"
        uses = ((line, rule) for rule, body in self.bodies.items() for is_prose, word, line in body
                if not is_prose and self.key(word) == self.key(name))
        line, rule = next(uses)
        return f"  line {line}: used in rule '{cut(self.named[rule][0][0])}'\n"

    def prose(self, name):
        word, line = next((word, line) for is_prose, word, line in self.bodies[self.key(name)] if is_prose)
        return f"  line {line}: {cut(word)}\n"

    def lines_on(self, kind, name, start):
        """Returns the lines after a note."""
        if kind == "undefined":
            return self.use(name, start)
        return self.prose(name) if kind == "prose" else self.definitions(kind, name)


def byte_text(byte, in_octal, marked):
    """Returns a byte as the canonical text of a literal or a class spells it."""
    if byte in random_peg.ESCAPES:
        return random_peg.ESCAPES[byte]
    if not 32 <= byte <= 126 or chr(byte) in in_octal:
        return "\\%03o" % byte
    return "\\" * (chr(byte) in marked) + chr(byte)


def set_text(members):
    """Returns a class as it is printed: by runs of its members, or of the other bytes if 255 is a member."""
    some, text = set(range(256)) - members if 255 in members else members, ""
    for first in sorted(it for it in some if it - 1 not in some):
        last = next(it for it in range(first, 256) if it + 1 not in some)
        run = [first] if last == first else [first, last]
        text += ("-" if last > first + 1 else "").join(byte_text(it, "-^", "[\\]") for it in run)
    return "[" + "^" * (255 in members) + text + "]"


def canonical(e, within="body"):
    """Returns an expression's canonical text."""
    kind = e[0]
    if random_peg.needs_brackets(e, within):
        return "(" + canonical(e) + ")"
    if kind in ("any", "open", "close"):
        return {"any": ".", "open": "<", "close": ">"}[kind]
    if kind == "bytes":
        return '"' + "".join(byte_text(it, "", '"\\') for it in e[1]) + '"'
    if kind in ("name", "act"):
        return e[1] if kind == "name" else "{" + e[1].decode() + "}"
    if kind == "set":
        return set_text(e[1])
    if kind in ("seq", "choice"):
        return (" " if kind == "seq" else " / ").join(canonical(it, kind) for it in e[1])
    if kind in ("and", "not"):
        return "&" + canonical(e[1], "and") if kind == "and" else "!" + canonical(e[1], "prefix")
    return canonical(e[1], "suffix") + {"star": "*", "plus": "+", "opt": "?"}[kind]


def repeats(e):
    """Yields the repetitions in an expression, in the order of their marks."""
    for part in slow_peg.parts(e):
        yield from repeats(part)
    if e[0] in ("star", "plus"):
        yield e


def marks(e):
    """Yields what stands in an expression: "use" for a name, "literal" for all else that takes or does something."""
    if e[0] == "name":
        yield "use"
    elif e[0] in ("any", "bytes", "set", "act", "open", "close"):
        yield "literal"
    for part in slow_peg.parts(e):
        yield from marks(part)


def leaves(e, place=(), choices=()):
    """Yields each expression without operands, and of which alternatives of which choices it is a part."""
    parts = slow_peg.parts(e)
    if not parts and e[0] not in ("seq", "choice"):
        yield e, dict(choices)
    for number, part in enumerate(parts):
        inner = (*choices, (place, number)) if e[0] == "choice" else choices
        yield from leaves(part, (*place, number), inner)


def lone_ends(e):
    """Yields how many leaves stand before each `>` before which no `<` stands, outside alternatives beside its own."""
    found = list(leaves(e))
    for position, (leaf, own) in enumerate(found):
        before = [it for other, it in found[:position] if other == ("open",)]
        if leaf == ("close",) and all(any(it.get(at, own[at]) != own[at] for at in own) for it in before):
            yield position


def definitions_held(template):
    """Yields the names that lines of an action define by their form, each with how many lines stand before it."""
    for ahead, line in enumerate(re.split(rb"\r\n|\r|\n", template)):
        found = re.match(rb"[ \t]*([A-Za-z_][A-Za-z0-9_]*)[ \t]*<-", line)
        if ahead and found:
            yield ahead, found[1]


def first_hints(reported):
    """Returns the first of some hints, and how many more there are."""
    return "".join(reported[:HINTS]) + (f"  and {len(reported) - HINTS} more\n" if len(reported) > HINTS else "")


def is_sure(e, names):
    """Returns whether an expression fails nowhere, given the rules that do."""
    if e[0] == "name":
        return e[1] in names
    if e[0] == "bytes":
        return not e[1]
    if e[0] == "seq":
        return all(is_sure(it, names) for it in e[1])
    if e[0] == "choice":
        return any(is_sure(it, names) for it in e[1])
    return e[0] in ("act", "open", "close", "opt", "star") or e[0] in ("plus", "and") and is_sure(e[1], names)


def sure_rules(rules):
    """Returns the names of the rules that fail nowhere: by rounds, until no round finds one more."""
    names = set()
    while True:
        more = {it for it, e in rules.items() if is_sure(e, names)}
        if more == names:
            return names
        names = more


class PegPositions(Places):
    """Of a text of peg(1) also what the bodies of the rules are."""

    def __init__(self, text, tokens, grammar):
        super().__init__(text, tokens, ("Arrow",), rb"\r\n|\r|\n", lambda name: name)
        self.rules, _ = slow_peg.first_bodies(grammar)
        self.nullable, self.ways, self.sure = slow_peg.nullable_rules(self.rules), 0, sure_rules(self.rules)

    def loop(self, name):
        line, e = next((line, e) for line, e in zip(self.repeats[name], repeats(self.rules[name.decode()]))
                       if slow_peg.is_nullable(e[1], self.nullable))
        return f"  line {line}: {cut(canonical(e).encode())} repeats what may take nothing\n"

    def uses(self, e, after):
        """Yields the names in an expression, each with the members that left steps skip, if they lead to it."""
        if e[0] == "name":
            yield e[1], after
        for part in slow_peg.parts(e):
            yield from self.uses(part, after)
            if e[0] == "seq" and after is not None:
                after = after + [part] if slow_peg.is_nullable(part, self.nullable) else None

    def way(self, rule):
        """Returns the rules on the way from a left-recursive one back to itself."""
        steps = {it: [name for name, after in self.uses(e, []) if after is not None] for it, e in self.rules.items()}
        far, depth = {rule: 0}, 0
        while depth in far.values():
            for used in [used for it in self.rules if far.get(it) == depth for used in steps[it] if used in self.rules]:
                far.setdefault(used, depth + 1)
            depth += 1
        way = [min((it for it in self.rules if it in far and rule in steps[it]), key=far.get)]
        while far[way[0]]:
            way.insert(0, next(it for it in self.rules if far.get(it) == far[way[0]] - 1 and way[0] in steps[it]))
        return way

    def step(self, rule, to):
        uses = [(*it, line) for it, (_, _, line) in zip(self.uses(self.rules[rule], []), self.bodies[rule.encode()])]
        after, line = next((after, line) for name, after, line in uses if name == to and after is not None)
        skipped = " ".join(canonical(it, "seq") for it in after)
        reported = " behind " + cut(skipped.encode()) if after else ""
        return f"  line {line}: '{cut(rule.encode())}' begins with '{cut(to.encode())}'{reported}\n"

    def left(self, name):
        self.ways += 1
        if self.ways > WAYS:
            return self.definitions("unused", name)
        way = self.way(name.decode())
        reported = "".join(self.step(*it) for it in list(zip(way, way[1:] + way[:1]))[:STEPS])
        return reported + (f"  and {len(way) - STEPS} more\n" if len(way) > STEPS else "")

    def literal(self, e):
        """Returns the bytes of a literal, or of a name whose rule is one; none of anything else."""
        e = self.rules.get(e[1], e) if e[0] == "name" else e
        return e[1] if e[0] == "bytes" else None

    def shown(self, e):
        """Returns how a literal is shown: a name is shown with its literal."""
        literal = cut(canonical(("bytes", self.literal(e))).encode())
        return f"{cut(canonical(e).encode())} ({literal})" if e[0] == "name" else literal

    def reason(self, alternatives, later):
        """Returns what a hint says of the first alternative that is taken wherever a later one would be, if one is."""
        front, text = later[1][0] if later[0] == "seq" and later[1] else later, cut(canonical(later).encode())
        for it in alternatives:
            earlier = cut(canonical(it).encode()) or "an empty alternative"
            if is_sure(it, self.sure):
                return f"{text} after {earlier}, which cannot fail"
            if it[0] == "any" and not slow_peg.is_nullable(later, self.nullable):
                return f"{text} after {earlier}, which takes any byte"
            literals = self.literal(it), self.literal(front)
            if None not in literals and literals[1].startswith(literals[0]):
                return f"{self.shown(front)} after {self.shown(it)}"
        return None

    def hidden(self, e, before):
        """Yields the marks before each alternative that is never taken, its own first mark, and the reason."""
        for number, part in enumerate(slow_peg.parts(e)):
            own = list(marks(part))
            reason = self.reason(e[1][:number], part) if e[0] == "choice" and own else None
            if reason:
                yield before, own[0], reason
            yield from self.hidden(part, before)
            before = before + own

    def leaf_hints(self, name, e):
        """Returns the hints on the actions that hold definitions, and those on the ends of captures, in a rule."""
        rule, kinds = f"in rule '{cut(name.encode())}'\n", [it[0] for it, _ in leaves(e)]
        lines = [None] * len(kinds)
        for line, at in zip(self.literals.get(name.encode(), []), [it for it, x in enumerate(kinds) if x != "name"]):
            lines[at] = line
        held = [f"action holds a definition {rule}  line {line + ahead}: '{cut(word)}' in the action of line {line}\n"
                for (leaf, _), line in zip(leaves(e), lines) if leaf[0] == "act"
                for ahead, word in definitions_held(leaf[1])]
        return held, [f"\">\" without \"<\" {rule}  line {lines[at]}: no \"<\" stands before it in its alternative\n"
                      for at in lone_ends(e)]

    def hints(self):
        """Returns the report on alternatives that are never taken, on actions that hold definitions, and on ends of
        captures that begin nowhere."""
        reported, held, ends = [], [], []
        for name, e in self.rules.items():
            lines = {"use": [line for _, _, line in self.bodies.get(name.encode(), [])],
                     "literal": self.literals.get(name.encode(), [])}
            reported += [f"alternative never taken in rule '{cut(name.encode())}'\n"
                         f"  line {lines[mark][before.count(mark)]}: {reason}\n"
                         for before, mark, reason in self.hidden(e, [])]
            of_actions, of_ends = self.leaf_hints(name, e)
            held, ends = held + of_actions, ends + of_ends
        return first_hints(reported) + first_hints(held) + first_hints(ends)

    def meant(self, name, start):
        """Returns which rule is perhaps meant by a name: the one given for the start rule, or one of the first ones."""
        unknown = list(dict.fromkeys(it for it in self.used if it not in self.named))
        near = next((it for it in self.named if is_near(it.lower(), name.lower())), None)
        early = name == start or name in unknown[:MEANT]
        return f"  perhaps '{cut(near)}' is meant\n" if near and early else ""

    def lines_on(self, kind, name, start):
        if kind == "left":
            return self.left(name)
        meant = self.meant(name, start) if kind == "undefined" else ""
        return self.loop(name) if kind == "loop" else super().lines_on(kind, name, start) + meant


def without_one(name):
    return {name[:it] + name[it + 1:] for it in range(len(name))}


def is_near(a, b):
    """Returns whether names of three bytes or more are at most one insertion, deletion, replacement or swap apart."""
    swaps = {a[:it] + a[it:it + 2][::-1] + a[it + 2:] for it in range(len(a) - 1)}
    others = len(a) == len(b) and sum(x != y for x, y in zip(a, b))
    return min(len(a), len(b)) > 2 and (
        a == b or others == 1 or b in swaps or b in without_one(a) or a in without_one(b))


class AbnfPositions(Places):
    """Of a text in ABNF also by which rules the judged one reaches names. Keys are names in small letters."""

    noted = 0

    def meant(self, name):
        """Returns which rule is perhaps meant by one of the first names that no rule has; core rules come last."""
        self.noted += 1
        rules = [*self.named, *(it for it in (it.lower().encode() for it in slow_abnf.CORE) if it not in self.named)]
        near = next((it for it in rules if is_near(it, self.key(name))), None)
        return f"  perhaps '{cut(self.spelled(near, near))}' is meant\n" if near and self.noted <= MEANT else ""

    def notation(self, name, start):
        """Returns how a code point or a range is written that the first use of a name is in other notations, if it is
        one; that which is given for the judged rule is none."""
        if start is not None and self.key(start) == self.key(name):
            return ""
        before, token, after = next(
            around for rule, body in self.bodies.items() for it, around in zip(body, self.around.get(rule, []))
            if not it[0] and self.key(it[1]) == self.key(name))
        if token.gap:
            return ""
        if before.text == b"0" and re.fullmatch(rb"x[0-9A-Fa-f]+", token.text):
            return "  a code point is written %x41\n"
        in_brackets = before.kind == "LBrack" and after.kind == "RBrack" and not after.gap
        if in_brackets and re.fullmatch(rb"(?:[A-Za-z0-9]-[A-Za-z0-9])+", token.text):
            return "  a range is written %x30-39\n"
        return ""

    def prose(self, name):
        """Returns the line of a rule's first prose, and another one if that is the name of a rule in brackets."""
        word = next(word for is_prose, word, _ in self.bodies[self.key(name)] if is_prose)
        names = {*self.named, *(it.lower().encode() for it in slow_abnf.CORE)}
        is_rule = any(self.key(word) == b"<" + it + b">" for it in names)
        return super().prose(name) + "  without < and > this is the rule of that name\n" * is_rule

    def names_in(self, rule):
        """Returns the keys of the names in a rule's body."""
        given = self.named.get(rule, [])
        core = slow_abnf.CORE.get(rule.decode().upper()) if not given or given[0][2] else None
        of_core = [it[1].lower().encode() for it in slow_abnf.walk(core) if it[0] == "name"] if core else []
        return of_core + [self.key(word) for is_prose, word, _ in self.bodies.get(rule, []) if not is_prose]

    def chain(self, name, start):
        """Returns the keys from the judged rule to a name; none where it does not reach the name."""
        rules = [*self.named, *(it for it in (it.lower().encode() for it in slow_abnf.CORE) if it not in self.named)]
        far, depth = {self.key(start) if start is not None else rules[0]: 0}, 0
        while depth in far.values():
            for rule in [it for it in rules if far.get(it) == depth]:
                for used in self.names_in(rule):
                    far.setdefault(used, depth + 1)
            depth += 1
        keys = [self.key(name)]
        while far.get(keys[0]):
            keys.insert(0, next(it for it in rules if far.get(it) == far[keys[0]] - 1 and keys[0] in self.names_in(it)))
        return keys if keys[0] in far else None

    def spelled(self, key, name):
        """Returns the name of a key: as its definition spells it, of a core rule in capitals, or as it is noted."""
        if key in self.named:
            return self.named[key][0][0]
        return key.upper() if key.decode().upper() in slow_abnf.CORE else name

    def reached(self, name, start):
        keys = self.chain(name, start)
        if keys is None or len(keys) < 2:
            return ""
        reported = [f"'{cut(self.spelled(it, name))}'" for it in keys]
        if len(reported) > CHAIN:
            reported[1:1 - CHAIN] = [f"{len(reported) - CHAIN} more"]
        return f"  reached by {' > '.join(reported)}\n"

    def lines_on(self, kind, name, start):
        meant = self.meant(name) if kind == "undefined" else ""
        meant = kind == "undefined" and self.notation(name, start) or meant
        after = self.reached(name, start) if kind in ("undefined", "prose") else ""
        return super().lines_on(kind, name, start) + meant + after


def kind_of(line):
    """Returns how the note of a line is explained, and its name; none where nothing explains it."""
    return next(((kind, line[len(front):-len(after)].encode("latin-1")) for front, after, kind in KINDS
                 if line.startswith(front) and line.endswith(after)), None)


def explained(message, places, start):
    """Returns messages, each with the lines that explain it."""
    reported = ""
    for line in message.decode("latin-1").split("\n")[:-1]:
        reported, note = reported + line + "\n", kind_of(line)
        reported += places.lines_on(*note, start) if note else ""
    return reported.encode("latin-1")


def peg(text, message, start, grammar):
    """Returns the messages of pegi on a grammar and an input, with what explains the notes."""
    tokens = slow_faults.tokens_of(text, slow_faults.PEG_WHITE, slow_faults.PEG_TOKENS, True)
    return explained(message, PegPositions(text, tokens, grammar), start and start.encode())


def peg_hints(text, grammar):
    """Returns the hints on a grammar, of which the text is given, too."""
    tokens = slow_faults.tokens_of(text, slow_faults.PEG_WHITE, slow_faults.PEG_TOKENS, True)
    return PegPositions(text, tokens, grammar).hints().encode("latin-1")


def abnf(text, message, judged):
    """Returns the messages of abnfi on a grammar and an input, with what explains the notes."""
    tokens = slow_faults.tokens_of(text, slow_faults.ABNF_WHITE, slow_faults.ABNF_TOKENS, False)
    places = AbnfPositions(text, tokens, ("Is", "Adds"), rb"\n", bytes.lower)
    return explained(message, places, judged and judged.encode())
