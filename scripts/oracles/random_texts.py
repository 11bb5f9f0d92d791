#!/usr/bin/env python3
"""Makes random texts in the manner of RFCs, of rules, prose, pages, fenced blocks and tags, and texts in XML, and
compares what abnfx writes of them with what slow_abnfx.py works out, and its canonical text with what `abnfi -m print`
prints of the grammar, unless abnfi rejects that. A grammar that is too long is tried too, and so are words and files
that it rejects.

usage: random_texts.py [-n TEXTS] [-s SEED]

It needs bin/abnfx, and bin/abnfi for canonical texts. Prints what differs, and then the status is 1.
"""
import argparse
import pathlib
import random
import subprocess
import sys
import tempfile

sys.path.insert(0, str(pathlib.Path(__file__).resolve().parent))
import slow_abnfx

BIN = pathlib.Path(__file__).resolve().parents[2] / "bin"
ABNFX, ABNFI = BIN / "abnfx", BIN / "abnfi"
# The message on both flags together.
BOTH = (b"error: the argument '-l' cannot be used with '-c'\n\nUsage: abnfx [OPTIONS] <TEXT>...\n\n"
        b"For more information, try '--help'.\n")
BOTH_LISTS = (b"error: the argument '--expand' cannot be used with '--expand-send'\n\n"
              b"Usage: abnfx [OPTIONS] <TEXT>...\n\nFor more information, try '--help'.\n")
# The options that write lists out, by the form.
EXPAND = {None: [], "receive": ["--expand"], "send": ["--expand-send"]}
# Two texts that read, whose grammar has more than 1048576 bytes.
LONG = [(f"{name}.txt", f'{name} = "x" ;'.encode() + b"c" * 600000) for name in ("a", "b")]
NAMES = ("a", "B", "b", "c-1", "Date", "date")
PARTS = ("a", "b", "DIGIT", "2*3date", '"x"', '"Y z"', "%x41-5A", "%d13.10", "*c-1", "[ b ]", "<the other text>",
         "<a>", "2<DIGIT>", "(<Date>)", "<B>", '"<a>"')
LISTS = ("#a", "1#b", "2#3<a>", "1#( b / c-1 )", "#3DIGIT", "0#0b", '1#1"x"', "#( 1#a )", "3#2b", "*2#a", "1#[ b",
         "# a")
PROSE = (
    "Prose of a text.", "Where a = b, c it is so:", "2.  Rules", "a = ", "The date May 2001", "x = ( y", "; a comment",
    "/ c-1", "    / c-1", "| b", ") / a", "       Deeper prose, of two.", "a = b | c", "date =/ 1*\"x\" ]"
)


# Lines that assign values, or nearly.
VALUES = (
    "COUNT = 0", "KEY = 09ffa1b2", "KEY=deadbeef", "pt = 0x1f", "PT = a1b2c3d4 e5f6", "n = a", "n = m", "m =/ n",
    "x = a[i];", "x = n ; a value", 'x = "a;";', 'realm="x",', "x=1*n", "x = 1* n", "x=(n", "a-1 = 3", "x = <n>;",
    "b = |", "y=|", "y=;", "z = ", "z =  n  ;", "k = *", "v = 'a'", "w = %", "k=-1", "c-1 = c-1",
)


FENCES = ("```", "````", "~~~", "~~~~", "  ~~~", "    ~~~")
TAGS = ("<t", " <t a", "<?x", "<t>", "< t", "b>", "c = <d>", "<1", "<", "<t b = c")
INFORMATION = (
    "", "", " abnf", "ABNF", " text", " c", " python x", " {.abnf #f}", " {#f .c}", "{a.b}", " `c`", " c{.x}"
)


def rule(made, size):
    """Returns the lines of a rule at that margin."""
    if made.random() < 0.15:
        body = [made.choice(("<see the other text>", "<b>", "1*<date>"))]
    else:
        parts = PARTS if made.random() < 0.8 else LISTS
        body = [made.choice(parts) for _ in range(made.choice((1, 1, 2, 3)))]
    sign = made.choice(("=", "=", "=", " =", "=/"))
    head = " " * size + made.choice(NAMES) + sign + " " + body[0]
    found = [head + (" ; of it" if made.random() < 0.1 else "")]
    for it in body[1:]:
        slash = made.choice(("", "/ "))
        if made.random() < 0.3:
            found.append(" " * (size + made.choice((1, 4))) + slash + it)
        elif ";" not in found[-1]:
            found[-1] += " " + slash + it
    return found


def text(made):
    """Returns a text."""
    found, page = [], 1
    for _ in range(made.randrange(1, 8)):
        size = made.choice((0, 2, 2, 3, 6))
        for _ in range(made.randrange(1, 4)):
            found += rule(made, size) + [made.choice(("", " ", "\t "))] * made.choice((0, 0, 1, 2))
            if made.random() < 0.2:
                found.append(" " * made.choice((0, size)) + made.choice(PROSE))
        if made.random() < 0.4:
            for _ in range(made.randrange(1, 5)):
                found.append(" " * size + made.choice(VALUES))
                found += [made.choice(("", " ", "    0a0b"))] * made.choice((0, 0, 1))
        if made.random() < 0.6:
            found += [""] * made.choice((0, 1)) + [" " * made.choice((0, 3)) + made.choice(PROSE)] + [""]
        if made.random() < 0.4:
            found.insert(made.randrange(len(found)), made.choice(FENCES) + made.choice(INFORMATION))
            found.append(made.choice(FENCES) + made.choice(("", "", " ", " c")))
        if made.random() < 0.3:
            found += ["", f"Author            Standards Track            [Page {page}]"]
            found += made.choice(([], [""], ["\f"])) + ["Rules of notes                      May 2001", "", ""]
            page += 1
    for _ in range(made.choice((0, 0, 0, 1, 2))):
        found.insert(made.randrange(len(found)), made.choice(TAGS))
    if made.random() < 0.15:
        found = [""] * made.choice((0, 1)) + ["%%%" + made.choice(("", " "))] + found
        found.insert(made.randrange(1, len(found)), "%%%")
    end = made.choice(("\n", "\n", "\r\n"))
    mark = made.choice((b"", b"", b"", b"\xEF\xBB\xBF"))
    return mark + (end.join(found) + made.choice(("", end))).encode()


# What begins a text in XML, the tags that begin and end elements, what stands in them, and what stands outside.
XML_FRONTS = ("<?xml version='1.0'?>", "\n <rfc>", "<!DOCTYPE rfc>", "<rfcs a='<artwork>'>")
OPENINGS = (
    "<artwork>", "<sourcecode>", "<sourcecode type='abnf'>", '<artwork a="b>c" type = "ABNF"\n>', "<artwork type=''>",
    "<artwork type='json'>", "<sourcecode\ntype='c'>", "<artwork/>", "<sourcecodes>", "<artwork type='abnf' />",
    "<sourcecode a='type=\"c\"'>", "<artwork atype='c'>", "<sourcecode type=abnf>", "<artwork type='abnf' type='c'>"
)
CLOSINGS = (
    "</artwork>", "</sourcecode>", "</sourcecode\n>", "</artworks>", "", "</artwork", "\n</artwork>", "\n</sourcecode>"
)
INSIDE = (
    "<![CDATA[", "]]>", "&lt;b&gt;", "&amp;lt;", "&quot;&apos;", "&#x41;", "&#65;", "&#065;", "&#x7f;", "&#31;",
    "&#x20;", "&#;", "&#X41;", "&nbsp;", "&", "]]", "<!--", "-->", "<b>",
    '"<![CDATA[&lt;]]>"', "&#9999999999999999999999;", "&#xg;"
)
OUTSIDE = ("<t>", "<!-- ", " -->", "<!-->", "a = b", "&lt;", "<![CDATA[", "]]>", " ", "<!-- <artwork> -->", "'", "x")


def xml(made):
    """Returns a text in XML."""
    found = made.choice(XML_FRONTS) + "\n"
    for _ in range(made.randrange(1, 6)):
        found += "".join(made.choice(OUTSIDE) + made.choice(("", "\n", "\n\n")) for _ in range(made.choice((0, 1, 2))))
        found += made.choice(OPENINGS) + made.choice(("", "\n", "\n", "<![CDATA[\n"))
        for _ in range(made.choice((0, 1, 2, 3))):
            size = made.choice((0, 0, 2, 3))
            lines = "\n".join(rule(made, size))
            if made.random() < 0.5:
                lines = lines.replace("<", "&lt;").replace(">", made.choice((">", "&gt;", "&#62;")))
            if made.random() < 0.3:
                at = made.randrange(len(lines))
                lines = lines[:at] + made.choice(INSIDE) + lines[at:]
            found += lines + made.choice(("\n", "\n\n", ""))
            if made.random() < 0.2:
                found += made.choice(INSIDE) + made.choice(("", "\n"))
        found += made.choice(("", "]]>")) + made.choice(CLOSINGS) + made.choice(("\n", "\n", "\n\n", ""))
    if made.random() < 0.2:
        found = found.replace("\n", "\r\n")
    return made.choice((b"", b"", b"\xEF\xBB\xBF")) + found.encode()


class Trials:
    """Runs of abnfx in a folder, and how many went wrong."""

    def __init__(self, folder):
        self.folder, self.wrong = pathlib.Path(folder), 0

    def put(self, texts):
        for name, bytes_of in texts:
            (self.folder / name).write_bytes(bytes_of)

    def expect(self, texts, option, want, reported, status):
        command = [ABNFX, *option, *(it for it, _ in texts)]
        ran = subprocess.run(command, cwd=self.folder, capture_output=True, check=False)
        out = ran.stdout if want is None else want
        if (ran.stdout, ran.stderr, ran.returncode) != (out, reported, status):
            self.wrong += 1
            print(f"{option}: {str(texts)[:2000]}\nwrites {ran.stdout}\nwanted {want}\n"
                  f"tells {ran.stderr}\nwanted {reported}\nstatus {ran.returncode}, wanted {status}")

    def canonical(self, grammar):
        """Returns the canonical text of a grammar, as abnfi prints it; None if it rejects the grammar."""
        if not grammar:
            return grammar
        (self.folder / "grammar").write_bytes(grammar)
        ran = subprocess.run([ABNFI, "-m", "print", "grammar"], cwd=self.folder, capture_output=True, check=False)
        return ran.stdout if ran.returncode == 0 else None

    def long_grammar(self):
        self.put(LONG)
        for option in ([], ["-c"]):
            self.expect(LONG, option, b"", b"grammar too long\n", 2)
        listed = "".join(f"{name}:1: '{name[0]}' stands\n" for name, _ in LONG)
        self.expect(LONG, ["-l"], listed.encode(), b"", 0)

    def refusals(self):
        """Words and files of which nothing is joined: the first file that cannot be read is reported."""
        text, long_text, none = ("t.txt", b'a = "x"\n'), ("long.txt", b" " * 16777217), ("none.txt", b"")
        self.put([text, long_text])
        for option in (["-c", "-l"], ["-l", "-c"], ["-lc"]):
            self.expect([text], option, b"", BOTH, 2)
        self.expect([text], ["--expand-send", "--expand"], b"", BOTH_LISTS, 2)
        self.expect([text, none, long_text], [], b"", b"cannot read none.txt\n", 4)
        self.expect([text, long_text, none], ["-l"], b"", b"long.txt longer than 16777216 bytes\n", 3)
        (self.folder / "long.txt").write_bytes(text[1] + b" " * (16777216 - len(text[1])))
        self.expect([long_text], ["-l"], b"long.txt:1: 'a' stands\n", b"", 0)


def main():
    asked = argparse.ArgumentParser()
    asked.add_argument("-n", type=int, default=300)
    asked.add_argument("-s", type=int, default=1)
    words = asked.parse_args()
    made = random.Random(words.s)
    with tempfile.TemporaryDirectory() as folder:
        trials = Trials(folder)
        trials.long_grammar()
        trials.refusals()
        for _ in range(words.n):
            texts = [(f"t{it}.txt", made.choice((text, text, xml))(made)) for it in range(made.choice((1, 1, 2, 3)))]
            trials.put(texts)
            form = made.choice((None, None, "receive", "send"))
            grammar, listed, reported, status = slow_abnfx.joined(texts, form)
            trials.expect(texts, EXPAND[form], grammar, reported.encode(), status)
            explained = slow_abnfx.joined(texts, form, True)[2]
            trials.expect(texts, ["-lx", *EXPAND[form]], listed.encode(), explained.encode(), status)
            if ABNFI.exists():
                trials.expect(texts, ["-c", *EXPAND[form]], trials.canonical(grammar), reported.encode(), status)
    print(f"texts: {words.n} cases, {trials.wrong} wrong")
    return 1 if trials.wrong else 0


if __name__ == "__main__":
    sys.exit(main())
