"""What abnfi must answer, worked out slowly and plainly: the strings that rules derive (RFC 5234, sections 2 to 4, and
RFC 7405) and the notes on a grammar. It shares nothing with the crates.

An element is a tuple: ("text", b, is_case_sensitive), ("values", [v ..]), ("range", a, b), ("concat", [e ..]),
("alt", [e ..]), ("rep", a, b or None, e), ("opt", e), ("name", n), ("prose", text). A grammar is a list of
(name, adds, element), where `adds` says whether the rule is given by `=/`.
"""


def name(text):
    return ("name", text)


def text(letters):
    return ("text", letters, False)


def either(*parts):
    return ("alt", list(parts))


# RFC 5234, appendix B.1
CORE = {
    "ALPHA": either(("range", 0x41, 0x5A), ("range", 0x61, 0x7A)),
    "BIT": either(text(b"0"), text(b"1")),
    "CHAR": ("range", 0x01, 0x7F),
    "CR": ("values", [0x0D]),
    "CRLF": ("concat", [name("CR"), name("LF")]),
    "CTL": either(("range", 0x00, 0x1F), ("values", [0x7F])),
    "DIGIT": ("range", 0x30, 0x39),
    "DQUOTE": ("values", [0x22]),
    "HEXDIG": either(name("DIGIT"), *(text(bytes([it])) for it in b"ABCDEF")),
    "HTAB": ("values", [0x09]),
    "LF": ("values", [0x0A]),
    "LWSP": ("rep", 0, None, either(name("WSP"), ("concat", [name("CRLF"), name("WSP")]))),
    "OCTET": ("range", 0x00, 0xFF),
    "SP": ("values", [0x20]),
    "VCHAR": ("range", 0x21, 0x7E),
    "WSP": either(name("SP"), name("HTAB")),
}


def alternatives(e):
    return e[1] if e[0] == "alt" else [e]


class Rules:
    """The rules that the definitions of a file make; keys are names in capitals."""

    def __init__(self, grammar):
        self.file, self.spelled, self.again, self.early = {}, {}, set(), set()
        for spelled, adds, body in grammar:
            self.define(spelled, adds, body)
        left_alone = {it: body for it, body in CORE.items() if it not in self.file}
        self.all = {**self.file, **left_alone}

    def define(self, spelled, adds, body):
        key = spelled.upper()
        self.spelled.setdefault(key, spelled)
        old = self.file.get(key, CORE.get(key) if adds else None)
        if adds and old is not None:
            self.file[key] = either(*alternatives(old), *alternatives(body))
        elif key in self.file:
            self.again.add(key)
        else:
            self.file[key] = body
            if adds:
                self.early.add(key)


def parts(e):
    """Returns the elements right inside an element."""
    if e[0] in ("concat", "alt"):
        return e[1]
    return [e[-1]] if e[0] in ("rep", "opt") else []


def walk(e):
    """Yields an element and all inside it, from left to right."""
    yield e
    for part in parts(e):
        yield from walk(part)


def names_in(e):
    return [it[1] for it in walk(e) if it[0] == "name"]


def has_prose(e):
    return any(it[0] == "prose" for it in walk(e))


def reached(rules, judged):
    """Returns the least set of names that holds the judged one and, with each, those in its body."""
    found, left = set(), [judged.upper()]
    while left:
        key = left.pop()
        if key not in found:
            found.add(key)
            left += [it.upper() for it in names_in(rules.all[key])] if key in rules.all else []
    return found


def notes_on(rules, judged):
    """Returns the lines of the notes on a grammar, and whether it is rejected."""
    first = judged or next(iter(rules.file))
    uses = ([judged] if judged else []) + [it for body in rules.all.values() for it in names_in(body)]
    undefined, used = {}, set()
    for it in uses:
        if it.upper() not in rules.all:
            undefined.setdefault(it.upper(), it)
    for body in rules.all.values():
        used.update(it.upper() for it in names_in(body))
    lines = [f"rule '{rules.spelled[it]}' redefined" for it in rules.file if it in rules.again]
    lines += [f"rule '{rules.spelled[it]}' extended before it is defined" for it in rules.file if it in rules.early]
    lines += [f"rule '{it}' used but not defined" for it in undefined.values()]
    lines += [f"prose in rule '{rules.spelled[it]}'" for it, body in rules.file.items() if has_prose(body)]
    lines += [f"rule '{rules.spelled[it]}' defined but not used" for it in rules.file
              if it not in used and it != first.upper()]
    near = reached(rules, first)
    broken = any(it not in rules.all or has_prose(rules.all[it]) for it in near)
    return "".join(it + "\n" for it in lines).encode(), bool(rules.again) or broken


def lower(letter):
    """Returns a letter of US-ASCII in lower case, and any other as it is."""
    return letter + 32 if 0x41 <= letter <= 0x5A else letter


def letters_of(line, is_utf8):
    """Returns the letters of a line, its bytes or its code points, and whether it is UTF-8 where it has to be; where it
    is not, they are those of its longest prefix that is.
    """
    if not is_utf8:
        return list(line), True
    try:
        return [ord(it) for it in line.decode("utf-8")], True
    except UnicodeDecodeError as fault:
        return [ord(it) for it in line[:fault.start].decode("utf-8")], False


def is_letter(value, is_utf8):
    """Returns whether a value is that of a letter: of a byte, or of a code point outside the surrogates."""
    return value < 0xD800 or 0xE000 <= value < 0x110000 if is_utf8 else value < 0x100


class Deriver:
    """Which parts of a list of symbols the rules derive. A set of places is a number whose bits are the places.

    If more letters may follow, `may_follow` says whether one of the values of a range is a letter, and the last place
    stands for all after it.
    """

    def __init__(self, rules, line, may_follow=None):
        self.rules, self.line, self.size = rules.all, line, len(line)
        self.may_follow = may_follow or (lambda low, high: False)
        self.ends = {}

    def derives(self, key):
        """Returns whether the rule derives the line, or one that begins with it: the least sets, by rounds until none
        grows."""
        self.ends = {it: [0] * (self.size + 1) for it in self.wanted(key)}
        while True:
            before = {it: list(rows) for it, rows in self.ends.items()}
            for it in self.ends:
                self.ends[it] = [self.after(self.rules[it], 1 << place) for place in range(self.size + 1)]
            if before == self.ends:
                return bool(self.ends[key][0] >> self.size & 1)

    def wanted(self, key):
        found, left = set(), [key]
        while left:
            it = left.pop()
            if it not in found:
                found.add(it)
                left += [other.upper() for other in names_in(self.rules[it])]
        return found

    def after(self, e, places):
        """Returns where a string of the element may end that begins at one of the places."""
        return getattr(self, "after_" + e[0])(e, places) if places else 0

    def over(self, places, low, high, test):
        """Returns the places after a letter from `low` to `high` that meets the test."""
        ends = 1 << self.size if places >> self.size & 1 and self.may_follow(low, high) else 0
        for place in range(self.size):
            if places >> place & 1 and test(self.line[place]):
                ends |= 1 << place + 1
        return ends

    def after_text(self, e, places):
        _, letters, exact = e
        for c in letters:
            places = self.over(places, c, c, lambda b, c=c: b == c or not exact and lower(b) == lower(c))
        return places

    def after_values(self, e, places):
        for v in e[1]:
            places = self.over(places, v, v, lambda b, v=v: b == v)
        return places

    def after_range(self, e, places):
        return self.over(places, e[1], e[2], lambda b: e[1] <= b <= e[2])

    def after_concat(self, e, places):
        for part in e[1]:
            places = self.after(part, places)
        return places

    def after_alt(self, e, places):
        ends = 0
        for part in e[1]:
            ends |= self.after(part, places)
        return ends

    def after_opt(self, e, places):
        return places | self.after(e[1], places)

    def after_rep(self, e, places):
        _, least, most, part = e
        if most is not None and most < least:
            return 0
        for _ in range(least):
            before, places = places, self.after(part, places)
            if places == before:  # as after each further turn
                break
        ends, turn = places, least
        while most is None or turn < most:
            places = self.after(part, places)
            turn += 1
            if places | ends == ends:  # and so after each further turn
                break
            ends |= places
        return ends

    def after_name(self, e, places):
        ends, rows = 0, self.ends[e[1].upper()]
        for place in range(self.size + 1):
            if places >> place & 1:
                ends |= rows[place]
        return ends


def furthest(rules, letters, key, is_utf8):
    """Returns how many first letters begin something that the rule derives; 0 if it derives nothing."""
    def may_follow(low, high):
        return any(is_letter(it, is_utf8) for it in (low, max(low, 0xE000)) if it <= high)
    sizes = range(len(letters), 0, -1)
    return next((size for size in sizes if Deriver(rules, letters[:size], may_follow).derives(key)), 0)


def lines_of(given, end, is_kept):
    """Yields what is judged of each line, with its end if that is kept, and how many bytes stand before its end."""
    *lines, last = given.split(end)
    for it in lines:
        yield it + end if is_kept else it, len(it)
    if last:
        yield last, len(last)


def answer(grammar, given, limit, judged, is_utf8=False, is_viable=False, end=b"\n", is_kept=False):
    """Returns the output, the error output, the status, and how many lines were judged; a rejected grammar is one."""
    rules = Rules(grammar)
    reported, refused = notes_on(rules, judged)
    if refused:
        return b"", reported, 2, 1
    key = (judged or next(iter(rules.file))).upper()
    lines = list(lines_of(given, end, is_kept))
    out, status = [], 0
    for number, (line, size) in enumerate(lines, 1):
        if size > limit:
            return b"".join(out), reported + b"line %d longer than %d bytes\n" % (number, limit), 3, number
        letters, is_text = letters_of(line, is_utf8)
        yes = is_text and Deriver(rules, letters).derives(key)
        no = b"no %d\n" % furthest(rules, letters, key, is_utf8) if is_viable and not yes else b"no\n"
        out.append(b"yes\n" if yes else no)
        status = status if yes else 1
    return b"".join(out), reported, status, max(1, len(lines))
