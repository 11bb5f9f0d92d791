#!/usr/bin/env python3
"""What stands in the text of an RFC, worked out slowly and plainly: its lines without page furniture, with title
blocks, blocks in other languages and long tags masked, of XML the contents of some elements, and the rules of ABNF
among them; and the grammar that several texts make up. It shares nothing with the crates.

usage: slow_abnfx.py [TEXT ..]

Prints what is found in each text: `FROM-TO NAME` for the lines of a rule, `FROM not ABNF: ` with the fault for a line
that begins a rule of which nothing reads, and `FROM-TO no ABNF` for lines that assign values. Without texts it compares
what is found in each of rfc_texts/*.txt with the file beside it, written by hand.
"""
import pathlib
import re
import sys

sys.path.insert(0, str(pathlib.Path(__file__).resolve().parent))
import slow_faults

BLANKS = b" \t\f"
MARGINS = b" \t"
MAX_GRAMMAR = 1048576
RULE = re.compile(rb"[A-Za-z][A-Za-z0-9-]*[ \t]*=")
PAGE = re.compile(rb"(.*)\[Page [0-9]+\]", re.S)
YEAR = re.compile(rb".*[ \t\f][0-9]{4}", re.S)


def is_indented(line):
    return line[:1] in (b" ", b"\t", b"\f")


def kind(line, has_feed):
    """Returns what a line looks like after its form feeds."""
    bare = line.rstrip(BLANKS)
    if not bare:
        return "feed" if has_feed else "blank"
    foot = PAGE.fullmatch(bare)
    if foot and (not is_indented(line) or not foot[1].strip(BLANKS)):
        return "foot"
    if YEAR.fullmatch(bare) and not is_indented(line) and not re.search(rb"[0-9]{5}$", bare):
        return "feed" if has_feed else "dated"
    return "other"


def lines(text):
    """Returns the number, the bytes and the kind of each line."""
    parts = re.split(rb"\r?\n", text.removeprefix(b"\xEF\xBB\xBF"))
    if not parts[-1]:
        parts.pop()
    found = []
    for number, part in enumerate(parts, 1):
        line = part.lstrip(b"\f")
        found.append((number, line, kind(line, len(line) < len(part))))
    return found


def kept(all_lines):
    """Returns the lines that are no page furniture."""
    def nearest(places):
        return next((it for it in places if all_lines[it][2] != "blank"), None)

    def is_mark(place):
        return place is not None and all_lines[place][2] in ("feed", "foot")

    def before(place):
        return nearest(range(place - 1, -1, -1))

    def is_head(place):
        return place is not None and all_lines[place][2] == "dated" and is_mark(before(place))

    def is_furniture(place):
        if all_lines[place][2] != "blank":
            return is_mark(place) or is_head(place)
        up, down = before(place), nearest(range(place + 1, len(all_lines)))
        return is_mark(up) or is_head(up) or is_mark(down)

    return [it for place, it in enumerate(all_lines) if not is_furniture(place)]


# A title block in front of a text in Markdown, and a fenced block: the next fence of its character that is not shorter,
# and has nothing after it, closes it.
TITLE = re.compile(rb"\A(?:[ \t\f]*\n)*(%%%[ \t\f]*\n(?:.*\n)*?%%%[ \t\f]*)$", re.M)
FENCED = re.compile(rb"^ {0,3}(?:(`{3,}+)(?=[^`\n]*$)|(~{3,}+))(.*)\n(?:.*\n)*? {0,3}(?:\1`*|\2~*)[ \t]*$", re.M)
# A tag that one line opens and a later one closes. A blank or a masked line ends the search.
TAG = re.compile(rb"^[ \t]*<[A-Za-z?][^>\n]*\n(?:(?!<$|[ \t\f]*$)[^>\n]*\n)*[^>\n]*>.*$", re.M)
READ_LANGUAGES = (b"", b"abnf", b"bnf", b"text", b"txt")


def language(information):
    """Returns the language that the information of a fence names, in small letters."""
    bare = information.strip(MARGINS).lower()
    if not bare.startswith(b"{"):
        return re.split(rb"[ \t{]", bare, maxsplit=1)[0]
    words = re.split(rb"[ \t]", bare[1:].partition(b"}")[0])
    return next((it[1:] for it in words if it.startswith(b".")), b"")


def text_of(rows):
    return b"".join(row[1] + b"\n" for row in rows)


def without(rows, spans):
    """Returns the lines with those masked that have these bytes of their text."""
    text, hidden = text_of(rows), set()
    for start, end in spans:
        hidden.update(range(text.count(b"\n", 0, start), text.count(b"\n", 0, end) + 1))
    return [(row[0], b"<", "other") if place in hidden else row for place, row in enumerate(rows)]


def masked(rows):
    """Returns the lines with those masked in which no rule is looked for."""
    text = text_of(rows)
    title = TITLE.match(text)
    spans = [title.span(1)] if title else []
    for it in FENCED.finditer(text, title.end() + 1 if title else 0):
        if language(it[3]) not in READ_LANGUAGES:
            spans.append(it.span())
    shown = without(rows, spans)
    return without(shown, [it.span() for it in TAG.finditer(text_of(shown))])


# What begins a text that is read as XML, a tag of an element that can hold ABNF, and one attribute of it. Quotes in a
# tag hold any byte.
XML = re.compile(rb"\s*(?:<\?xml|<rfc|<!DOCTYPE)")
QUOTED = rb"""(?:[^>"']|"[^"]*(?:"|\Z)|'[^']*(?:'|\Z))*"""
OPENING = re.compile(rb"<!--.*?(?:-->|\Z)|<(sourcecode|artwork)(?=[ \t\r\n/>])" + QUOTED + rb"(?:>|\Z)", re.S)
TYPE = re.compile(rb"""[ \t\r\n]type[ \t\r\n]*=[ \t\r\n]*(?:"([^"]*)"?|'([^']*)'?)|"[^"]*"|'[^']*'""")
REFERENCES = {b"lt": b"<", b"gt": b">", b"amp": b"&", b"quot": b'"', b"apos": b"'"}


def type_of(tag):
    """Returns the value of `type` in a tag, in small letters."""
    values = [it for it in TYPE.finditer(tag) if it[0][:1] not in (b'"', b"'")]
    return (values[0][1] or values[0][2] or b"").lower() if values else b""


def decoded(it):
    """Returns the bytes for which a reference stands."""
    name = it[1]
    if name[:1] != b"#":
        return REFERENCES.get(name, it[0])
    number = int(name[2:], 16) if name[1:2] == b"x" else int(name[1:])
    return bytes([number]) if 0x20 <= number <= 0x7E else it[0]


def contents(text):
    """Returns the places of the bytes of an XML text that are contents, each with the bytes that it stands for."""
    found, place = {}, 0
    while opened := OPENING.search(text, place):
        place = opened.end()
        if not opened[1] or opened[0].endswith(b"/>") or type_of(opened[0]) not in (b"", b"abnf"):
            continue
        closing = re.compile(rb"(<!\[CDATA\[)|(</" + opened[1] + rb"(?=[ \t\r\n/>])" + QUOTED + rb"(?:>|\Z))|"
                             rb"&(#x[0-9A-Fa-f]+|#[0-9]+|lt|gt|amp|quot|apos);", re.S)
        while True:
            it = closing.search(text, place)
            stop = it.start() if it else len(text)
            found.update((at, text[at:at + 1]) for at in range(place, stop))
            place = it.end() if it else len(text)
            if not it or it[2]:
                break
            if it[1]:
                end = text.find(b"]]>", place)
                found.update((at, text[at:at + 1]) for at in range(place, end if end >= 0 else len(text)))
                place = end + 3 if end >= 0 else len(text)
            else:
                found[it.start()] = decoded(re.fullmatch(rb"&(.*);", it[0]))
                if len(found[it.start()]) > 1:
                    found.update((at, text[at:at + 1]) for at in range(it.start(), it.end()))
                else:
                    found.update((at, b"") for at in range(it.start() + 1, it.end()))
    return found


def xml_text(text):
    """Returns the text that is read of an XML text: a line for each of its lines."""
    held, shown, start = contents(text), b"", 0
    for part in re.findall(rb"[^\n]*\n|[^\n]+\Z", text):
        line = part.removesuffix(b"\n")
        if part.endswith(b"\r\n"):
            line = line.removesuffix(b"\r")
        places = range(start, start + len(line))
        inside = b"".join(held.get(at, b"") for at in places)
        is_other = any(at not in held for at in places)
        shown += (b"<" if is_other and not inside.strip(b" \t\f\r") else inside) + b"\n"
        start += len(part)
    return shown


def is_xml(text):
    return bool(XML.match(text.removeprefix(b"\xEF\xBB\xBF")))


def margin(line):
    return len(line) - len(line.lstrip(MARGINS))


def opens(line):
    return bool(RULE.match(line.lstrip(MARGINS)))


def size_of(some):
    """Returns how many of these lines the rule has that the first one begins."""
    size = margin(some[0][1])
    for count, (before, (_, line, it)) in enumerate(zip(some, some[1:]), 1):
        bare = line.lstrip(MARGINS)
        inner = bare[:1] in (b"/", b"|", b")", b"]") and before[2] != "blank"
        if opens(line) or not (it == "blank" or bare[:1] == b";" or margin(line) > size or inner):
            return count
    return len(some)


def fault(some):
    """Returns what is wrong with the lines as ABNF, without the margin of the first; None if nothing is."""
    size = margin(some[0][1])
    text = b"".join(line[min(size, margin(line)):] + b"\n" for _, line, _ in some)
    if len(text) > MAX_GRAMMAR:
        return "grammar too long"
    reported = slow_faults.first_of_abnf(text)
    return reported and reported.partition("\n")[0]


def explained(some):
    """Returns the lines that explain why these lines, as they stand, are no ABNF."""
    text = text_of(some)
    if len(text) > MAX_GRAMMAR:
        return f"  a grammar has at most {MAX_GRAMMAR} bytes\n"
    return slow_faults.first_of_abnf(text).partition("\n")[2]


def is_cut(some, count):
    """Returns whether the rule that has these lines can end after so many of them."""
    if some[count - 1][2] == "blank":
        return False
    after = [it for it in some[count:] if it[2] != "blank"]
    return not after or some[count][2] == "blank" and after[0][1].lstrip(MARGINS)[:1] != b"/"


def cuts(some):
    """Returns the numbers of lines after which the rule can end, ascending."""
    return [it for it in range(1, len(some) + 1) if is_cut(some, it)]


TOKEN = re.compile(rb'"[^"]*"|<[^>]*>|;[^\n]*|[][()/=]|[^][()/=;"<\s]+')
REPEAT = re.compile(rb"[0-9]*\*?[0-9]*")
NAME = re.compile(rb"[A-Za-z][A-Za-z0-9-]*")
# the names of RFC 5234, appendix B.1, in small letters
CORE = b"alpha bit char cr crlf ctl digit dquote hexdig htab lf lwsp octet sp vchar wsp".split()


def tokens_of(text):
    return [it for it in TOKEN.findall(text) if not it.startswith(b";")]


def folded(tokens):
    """Returns the tokens in small letters, but for prose and texts after `%s`; `%i` says nothing."""
    found, is_exact = [], False
    for it in tokens:
        found.append(it if it.startswith(b"<") or is_exact else re.sub(rb"%i$", b"", it.lower()))
        is_exact = it.lower().endswith(b"%s")
    return [it for it in found if it]


# What is no name in brackets: a text in quotes, or a comment; or a name in brackets.
BRACKETS = re.compile(rb'"[^"]*"|;.*|<([^>]*)>')


# A byte that begins no token, where a rule goes wrong that is more than a value; and a word in hexadecimal digits.
MARKING = b"|#\"<%'"
HEX = re.compile(rb"0x[0-9A-Fa-f]+|(?=[0-9A-Fa-f]*[0-9])(?:[0-9A-Fa-f]{2}){4,}")
CLOSED = re.compile(rb'"[ !#-~]*"|<[ -=?-~]*>|([^;])')
COMPACT = re.compile(rb"[ \t]*[A-Za-z][A-Za-z0-9-]*=[^ \t/]")


class Sketch:
    """What distinguishes a rule from lines that assign values: its lines up to the end of the cut that reads, or all;
    their positions among those of the text; whether it reads; and whether a list is written out in it."""

    def __init__(self, some, first, reads, has_list):
        self.rows, self.first, self.end, self.reads = some, first, first + len(some), reads
        size = margin(some[0][1])
        text = b"".join(line[min(size, margin(line)):] + b"\n" for _, line, _ in some)
        self.spelled = NAME.match(text)[0]
        self.name = self.spelled.lower()
        self.is_long = len(text) > MAX_GRAMMAR
        tokens, number = ([], 0) if self.is_long else slow_faults.abnf_decision(text)[:2]
        self.words = [] if self.is_long else tokens[2:len(tokens) - 1 if number is None else number]
        self.bad = None
        if not self.is_long and number is not None and tokens[number].kind == "Bad":
            self.bad = text[tokens[number].start:][:1]
        kinds = {it.kind for it in self.words}
        counts = any(it.kind == "Repeat" and b"*" in it.text for it in self.words[:-1])
        more = {"LParen", "LBrack"} & kinds or has_list if reads else self.bad and self.bad in MARKING
        adds = not self.is_long and tokens[1].kind == "Adds"
        self.is_marked = bool(self.is_long or adds or {"Text", "Num", "Prose", "Slash"} & kinds or counts or more)
        self.uses = {it.text.lower() for it in self.words if it.kind == "Name"}

    def shown_name(self):
        return self.spelled.decode()

    def is_statement(self):
        """Returns whether the first line ends like a statement: `x = a[i];`."""
        line, place = self.rows[0][1].rstrip(MARGINS), 0
        while it := CLOSED.match(line, place):
            place = it.end()
        return place == len(line) - 1 and line[place - 1:place] not in (b" ", b"\t")

    def is_compact(self):
        """Returns whether nothing stands beside `=`, and a text alone or what is no ABNF follows it: `a="b",`."""
        if not COMPACT.match(self.rows[0][1]):
            return False
        return [it.kind for it in self.words] == ["Text"] if self.reads else self.bad not in (b"|", b"#")

    def has_hex(self):
        after = text_of(self.rows).partition(b"=")[2]
        return any(HEX.fullmatch(it) for it in re.split(rb"[ \t\n;,]", after))

    def is_value(self, grounded):
        is_plain = not self.is_marked and not self.uses & grounded
        return is_plain or self.is_statement() or self.is_compact()


def grounded_names(sketches):
    """Returns the names of core rules, and of rules that end at some terminal, as far as their words say."""
    names = set(CORE) | {it.name for it in sketches if it.is_marked}
    while more := {it.name for it in sketches if it.uses & names} - names:
        names |= more
    return names


def runs_of(entries, rows, grounded):
    """Returns the runs of values among what is found in a text."""
    runs = []
    for it in entries:
        if not it.sketch.is_value(grounded):
            continue
        last = runs[-1][-1] if runs else None
        if last and all(row[2] == "blank" for row in rows[last.sketch.end:it.sketch.first]):
            runs[-1].append(it)
        else:
            runs.append([it])
    return runs


def is_no_abnf(run):
    """Returns whether a run of values holds no rules of ABNF."""
    sketches = [it.sketch for it in run]
    names = {it.name for it in sketches}
    return any(it.is_statement() for it in sketches) or len(run) > 1 and (
        len(names) < len(run) or any(not it.reads or it.has_hex() for it in sketches))


class Rule:
    """A rule as a text gives it: the name of the text, its lines without the margin, and what it says."""

    def __init__(self, name, some, blanks, sources):
        size = margin(some[0][1])
        self.sources = [line[min(size, margin(line)):] for _, line, _ in sources]
        self.text, self.first, self.last, self.blanks = name, some[0][0], some[-1][0], blanks
        self.rows = [(number, line[min(size, margin(line)):]) for number, line, _ in some]
        self.say()
        self.is_prose = not self.adds and all(it[:1] in b"</[]()" or REPEAT.fullmatch(it) for it in self.body)
        self.comments = b""

    def say(self):
        self.written = b"".join(line + b"\n" for _, line in self.rows)
        tokens = tokens_of(self.written)
        self.name, self.key = tokens[0].decode(), tokens[0].lower()
        self.adds = tokens[2] == b"/"
        self.body = folded(tokens[2 + self.adds:])
        # the names that it uses, each with its line: what stands after a repeat, but the name of the rule itself
        self.uses = [(number, REPEAT.sub(b"", it, count=1)) for number, line in self.rows for it in tokens_of(line)][1:]
        self.uses = [(number, it) for number, it in self.uses if NAME.fullmatch(it)]

    def lose_brackets(self, known):
        """Takes the angle brackets from names that are known, but its own."""
        def bare(it):
            return it[1] if it[1] and it[1].lower() in known - {self.key} else it[0]

        new = [(number, BRACKETS.sub(bare, line)) for number, line in self.rows]
        self.comments = b"".join(b"; from: " + old + b"\n" for old, it in zip(self.sources, new) if old != it[1])
        self.rows = new
        self.say()

    def place(self):
        return f"{self.text}:{self.first}"

    def is_same(self, other):
        """Returns whether the tokens are the same. Rules in brackets that say no more are not compared by this."""
        alike = self.adds == other.adds and self.is_prose == other.is_prose
        return alike and self.key == other.key and self.body == other.body

    def yields_to(self, other):
        return self.key == other.key and not other.adds and self.is_prose and not other.is_prose


NUMBERS = b"|".join(rb"%%[%c%c][%b]+(?:(?:\.[%b]+)+|-[%b]+)?" % (it, it - 32, digits, digits, digits)
                    for it, digits in zip(b"bdx", (b"01", b"0-9", b"0-9A-Fa-f")))
# What may stand in a grammar (RFC 5234, section 4): white space, an element of one token, brackets, `=`, and the rest.
PIECE = re.compile(rb"([ \t\n]+|;[^\n]*)|([A-Za-z][A-Za-z0-9-]*|(?:%[sSiI])?\"[ !#-~]*\"|" + NUMBERS
                   + rb"|<[ -=?-~]*>)|([(\[])|([)\]])|(=/?)|([0-9]*\*[0-9]*|[0-9]+|/)")
LIST = re.compile(rb"#([0-9]*)")


def element_end(text, place):
    """Returns where the element ends that begins there, or None."""
    depth = 0
    while it := PIECE.match(text, place):
        place = it.end()
        if it[5] or depth == 0 and not (it[2] or it[3]):
            return None
        depth += bool(it[3]) - bool(it[4])
        if depth > 200:
            return None
        if depth == 0:
            return place
    return None


def list_text(form, least, most, element):
    """Returns what is written for a list of an element (RFC 9110, sections 5.6.1.1 and 5.6.1.2)."""
    copy = b"".join(b" " if it[1] else it[0] for it in PIECE.finditer(element))
    copy = re.sub(rb" +(?=(?:[^\"<]|\"[^\"]*\"|<[^>]*>)*\Z)", b" ", copy)
    if form == "receive":
        return b"[ " + element + b' ] *( OWS "," OWS [ ' + copy + b" ] )"
    if least == 0:
        return b"[ " + list_text(form, 1, most, element) + b" ]"
    if most == 1:
        return element
    counts = [b"" if it is None or it < 1 else b"%d" % it for it in (least - 1, most and most - 1)]
    return element + b" " + counts[0] + b"*" + counts[1] + b'( OWS "," OWS ' + copy + b" )"


def expanded(text, form):
    """Returns a text with its lists written out."""
    new, start, place, count = b"", 0, 0, 0
    while place < len(text):
        it = PIECE.match(text, place)
        if it:
            count, place = place if it[6] and it[0] != b"/" else it.end(), it.end()
            continue
        sign = LIST.match(text, place)
        digits = text[count:place]
        end = sign and element_end(text, sign.end())
        least, most = int(digits) if digits.isdigit() else 0, int(sign[1]) if sign and sign[1] else None
        if not end or digits.strip(b"0123456789") or most is not None and (most < 1 or least > most):
            place = count = (text.find(b"\n", place) + 1) or len(text)
            continue
        new += text[start:count] + list_text(form, least, most, text[sign.end():end])
        start = place = count = end
    return new + text[start:]


def with_lists(rows, form):
    """Returns lines with their lists written out."""
    new = expanded(b"".join(line + b"\n" for _, line, _ in rows), form).split(b"\n")
    return [row if row[1] == it else (row[0], it, "other") for row, it in zip(rows, new)]


def in_text(why, some):
    """Returns a fault of these lines with the number that its line has in the text."""
    at = re.match(r"line (\d+)(.*)", why, re.S)
    return f"line {some[min(int(at[1]), len(some)) - 1][0]}{at[2]}" if at else why


def list_line(some):
    """Returns the number of the first of these lines with a list, if the rule that they begin reads with its lists."""
    new = with_lists(some, "receive")
    changed = [old[0] for old, it in zip(some, new) if old != it]
    return changed[0] if changed and any(fault(new[:it]) is None for it in cuts(new)) else None


class Fault:
    """A rule of which no cut reads: the name of its text, its first line, what is wrong, and what explains it."""

    def __init__(self, text, first, fault, why):
        self.text, self.first, self.fault, self.why = text, first, fault, why

    def reported(self, explains):
        return f"{self.text}:{self.first}: not ABNF: {self.fault}\n" + explains * self.why


def found(name, text, form=None):
    """Returns for each line of a text that begins a rule the rule or its fault, and the lines of the text."""
    bare, reported = text.removeprefix(b"\xEF\xBB\xBF"), []
    if is_xml(bare):
        shown = kept(lines(xml_text(bare)))
        rest = without(shown, [it.span() for it in TAG.finditer(text_of(shown))])
    else:
        rest = masked(kept(lines(text)))
    sources, rest = rest, with_lists(rest, form) if form else rest
    for place, (number, line, _) in enumerate(rest):
        if opens(line):
            some = rest[place:place + size_of(rest[place:])]
            read = [it for it in cuts(some) if fault(some[:it]) is None]
            if read:
                after = rest[place + read[-1]:]
                blanks = next((it for it, row in enumerate(after) if row[2] != "blank"), len(after))
                own = sources[place:place + read[-1]]
                reported.append(Rule(name, some[:read[-1]], blanks, own))
                reported[-1].sketch = Sketch(some[:read[-1]], place, True, own != some[:read[-1]])
            else:
                whole = some[:cuts(some)[-1]]
                listed = None if form else list_line(whole)
                told = f"line {listed}: list of RFC 9110: use --expand" if listed else in_text(fault(whole), whole)
                reported.append(Fault(name, number, told, explained(whole)))
                reported[-1].sketch = Sketch(whole, place, False, False)
    return reported, rest


def run_reported(run):
    """Returns the report on lines that assign values."""
    first, last = run[0], run[-1]
    return f"{first.text}:{first.first}: no ABNF: {len(run)} lines up to line {last.first} assign values\n"


def given(entries, rows, grounded, explains):
    """Returns the rules of a text, the values, the reports on it, and whether a rule is no ABNF."""
    runs = {id(run[0]): run for run in runs_of(entries, rows, grounded) if is_no_abnf(run)}
    values = [it for run in runs.values() for it in run]
    reported, is_faulty = "", False
    for it in entries:
        if id(it) in runs:
            reported += run_reported(runs[id(it)])
        elif it not in values and isinstance(it, Fault):
            reported, is_faulty = reported + it.reported(explains), True
    return [it for it in entries if it not in values and isinstance(it, Rule)], values, reported, is_faulty


def fates(rules):
    """Returns what becomes of each rule, in words."""
    found = []
    for number, rule in enumerate(rules):
        wanted = [it for it in rules if rule.yields_to(it)]
        same = [it for it in rules[:number] if rule.is_same(it)]
        again = f"is given at {same[0].place()}" if same else "stands"
        found.append(f"yields to {wanted[0].place()}" if wanted else again)
    return found


def joined(texts, form=None, explains=False):
    """Returns the grammar that texts make up, the list of their rules, the messages, and the status."""
    all_found = [found(name, text, form) for name, text in texts]
    grounded = grounded_names([it.sketch for entries, _ in all_found for it in entries])
    rules, values, reported, is_faulty = [], [], "", False
    for entries, rows in all_found:
        more, none, said, wrong = given(entries, rows, grounded, explains)
        rules, values, reported, is_faulty = rules + more, values + none, reported + said, is_faulty or wrong
    known = {it.key for it in rules} | set(CORE)
    for it in rules:
        it.lose_brackets(known)
    becomes = fates(rules)
    lines = {id(it): f"{it.place()}: '{it.name}' {fate}\n" for it, fate in zip(rules, becomes)}
    lines |= {id(it): f"{it.text}:{it.first}: '{it.sketch.shown_name()}' assigns a value\n" for it in values}
    listed = "".join(lines[id(it)] for entries, _ in all_found for it in entries if id(it) in lines)
    stand = [it for it, fate in zip(rules, becomes) if fate == "stands"]
    first = {}
    for it in stand:
        if not it.adds:
            first.setdefault(it.key, it)
    clashes = [it for it in stand if not it.adds and first[it.key] is not it]
    for it in clashes:
        reported += f"{it.place()}: '{it.name}' is defined otherwise at {first[it.key].place()}\n"
    order = []
    for number, it in enumerate(stand):
        if not it.adds:
            early = [other for other in stand[:number] if other.adds and other.key == it.key]
            order += [it] + (early if first[it.key] is it else [])
        elif it.key not in first or first[it.key] in stand[:number]:
            order.append(it)
    grammar, before = b"", None
    for it in order:
        if before is not None and before.text == it.text and before.last + before.blanks + 1 == it.first:
            grammar += b"\n" * before.blanks
        else:
            grammar += f"; {it.place()}\n".encode()
        grammar, before = grammar + it.comments + it.written, it
    known = {it.key for it in stand} | set(CORE)
    for it in order:
        for number, name in it.uses:
            if name.lower() not in known:
                known.add(name.lower())
                reported += f"{it.text}:{number}: '{name.decode()}' is not defined\n"
    status = 1 if is_faulty or clashes or not stand else 0
    return grammar, listed, reported + ("" if stand else "no rules found\n"), status


def shown(all_found):
    """Returns a line for each rule that is found in a text, and for each that is no ABNF."""
    entries, rows = all_found
    runs = [run for run in runs_of(entries, rows, grounded_names([it.sketch for it in entries])) if is_no_abnf(run)]
    values, lines = {id(it) for run in runs for it in run}, []
    for it in entries:
        lines += [f"{run[0].first}-{run[-1].first} no ABNF\n" for run in runs if run[0] is it]
        if id(it) not in values:
            lines.append(f"{it.first}-{it.last} {it.name}\n" if isinstance(it, Rule) else
                         f"{it.first} not ABNF: {it.fault}\n")
    return "".join(lines)


def main():
    if sys.argv[1:]:
        for name in sys.argv[1:]:
            sys.stdout.write(shown(found(name, pathlib.Path(name).read_bytes())))
        return 0
    wrong = 0
    for file in sorted((pathlib.Path(__file__).resolve().parent / "rfc_texts").glob("*.txt")):
        want, is_found = file.with_suffix(".found").read_text(), shown(found(file.name, file.read_bytes()))
        if is_found != want:
            wrong += 1
            print(f"{file.name}: found\n{is_found}wanted\n{want}", end="")
    print(f"wrong: {wrong}")
    return wrong > 0


if __name__ == "__main__":
    sys.exit(main())
