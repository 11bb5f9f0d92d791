"""Shapes of texts of grammars and of RFCs, in any size."""
import bisect
import collections
import itertools

# A text of a size: what it begins with, a piece again and again, which may depend on how many were before, and what it
# ends with, which may depend on how many there are.
Shape = collections.namedtuple("Shape", "front piece back", defaults=("",))


def numbered(form):
    """Returns a piece: the form with its number in place of `#`, and the next number in place of `@`."""
    return lambda at: form.replace("#", str(at)).replace("@", str(at + 1))


def halves(front, first, between, second, back):
    """Returns a text of two pieces, each again and again, equally often."""
    def text(size):
        count = (size - 40) // len(first + second)
        return front + first * count + between + second * count + back
    return text


# In both languages; `=` stands for the arrow of peg(1) too, and `;` for its comments.
BOTH = {
    "alternatives": Shape('s = a', ' / a', '\na = "x"\n'),
    "a sequence": Shape('s = a', ' a', '\na = "x"\n'),
    "nested alternatives": Shape('s = "x"', ' / ' + '("a" / ' * 199 + '"b"' + ')' * 199, '\n'),
    "nested brackets": Shape('s = "x"', ' ' + '(' * 200 + '"a"' + ')' * 200, '\n'),
    "a chain": Shape('', numbered('r# = "x" r@\n'), numbered('r# = "y"\n')),
    "a chain upwards": Shape('s = "x"\nr0 = "y"\n', numbered('r@ = r# "x"\n')),
    "a chain of names": Shape('', numbered('r# = r@\n'), numbered('r# = ""\n')),
    "a chain of names upwards": Shape('s = "x"\nr0 = ""\n', numbered('r@ = r#\n')),
    "a ring": Shape('', numbered('r# = r@ "x"\n'), numbered('r# = r0 "x"\n')),
    "left recursion": Shape('s = "x"\n', numbered('r# = r# "a" / "b"\n')),
    "undefined names": Shape('s = "x"', numbered(' u#'), '\n'),
    "a choice of undefined names": Shape('s = "x"', numbered(' / u#'), '\n'),
    "undefined names down a chain": Shape('', numbered('r# = r@ u#\n'), numbered('r# = "x"\n')),
    "unused rules": Shape('', numbered('r# = "x"\n')),
    "rules defined twice": Shape('', numbered('r# = "x"\nr# = "y"\n')),
    "one rule defined again": Shape('', 'r = "x"\n'),
    "a long name": lambda size: "s = N\nN = \"x\" N\n".replace("N", "n" * (size // 3 - 10)),
    "long names": Shape('', numbered(f'{"n" * 500}# = "x" {"n" * 500}@\n'), numbered(f'{"n" * 500}# = "x"\n')),
    "literals": Shape('s = "x"', numbered(' / "w#"'), '\n'),
    "literals of which none begins another": Shape('s = "x"', numbered(' / "#w"'), '\n'),
    "long literals": Shape('s = "x"', numbered(f' / "{"w" * 500}#"'), '\n'),
    "longer literals": Shape('s = "x"', lambda at: f' / "{"a" * (at + 1)}"', '\n'),
    "one literal again": Shape('s = "x"', ' / "ab"', '\n'),
    "a long literal": Shape('s = "', 'a', '"\n'),
    "comments": Shape('', '; a comment\n', 's = "x"\n'),
    "a long comment": Shape(';', 'c', '\ns = "x"\n'),
    "blank lines": Shape('', '\n', 's = "x"\n'),
    "lines of a rule": Shape('s = "x"', '\n  / "y" ; of it', '\n'),
    "a fault at the end": Shape('', numbered('r# = "x"\n'), ')'),
    "a fault at the end of a line": Shape('s = "x"', ' "y"', ' )\n'),
    "an open literal": Shape('s = "', 'a'),
}
PEG = {
    **BOTH,
    "classes": Shape('s <- .', ' / [a-z]', '\n'),
    "a long class": Shape('s <- [', 'a-z', ']\n'),
    "actions": Shape('s <- .', ' { x }', '\n'),
    "a long action": Shape('s <- . {', ' x', ' }\n'),
    "braces": halves('s <- . {', '{', '', '}', '}\n'),
    "captures": Shape('s <- .', ' < "a" >', '\n'),
    "options": Shape('s <- .', ' "a"?', '\n'),
    "predicates": Shape('s <- .', ' !"a" &.', '\n'),
    "escapes": Shape('s <- "', '\\n', '"\n'),
    "endless loops": Shape('s <- .\n', numbered('r# <- ("a"?)*\n')),
    "a chain that may take nothing": Shape('', numbered('r# <- r@? "x"?\n'), numbered('r# <- r0?\n')),
    "alternatives never taken": Shape('s <- .\n', numbered('r# <- "a" / "ab"\n')),
}
ABNF = {
    **BOTH,
    "values": Shape('s = %x41', '.41', '\n'),
    "ranges": Shape('s = "x"', ' / %x41-5A', '\n'),
    "a long number": Shape('s = %x', '0', '41\n'),
    "a long repetition": Shape('s = 1*', '9', '"a"\n'),
    "repetitions": Shape('s = "x"', ' 1*2"a"', '\n'),
    "nested repetitions": Shape('s = "x"', ' / ' + '2(' * 20 + '"a"' + ')' * 20, '\n'),
    "reversed ranges": Shape('s = "x"', ' / %x5A-41', '\n'),
    "reversed repetitions": Shape('s = "x"', ' 2*1"a"', '\n'),
    "a long reversed range": halves('s = %d9', '8', '-', '8', '\n'),
    "a long reversed repetition": halves('s = 9', '8', '*', '8', '"a"\n'),
    "prose": Shape('s = "x"', ' / <p>', '\n'),
    "prose that does not stand": halves('r = "a"\n', 'r = <p>\n', '', 'r =/ "b"\n', 'r =/ <q>\n'),
    "prose down a chain": Shape('', numbered('r# = r@ <p>\n'), numbered('r# = <p>\n')),
    "a long prose": Shape('s = <', 'p', '>\n'),
    "options": Shape('s = "x"', ' ["a"]', '\n'),
    "additions": Shape('r = "a"\n', 'r =/ "b"\n'),
    "additions before": Shape('', numbered('r# =/ "a"\nr# = "b"\n')),
    "rules that derive nothing": Shape('s = "x"\n', numbered('r# = r# "a"\n')),
    "an indented grammar": Shape('', numbered('      r# = "x" r@\n'), numbered('      r# = "x"\n')),
    "other cases": Shape('', numbered('R# = "x" r@\n'), numbered('r# = "x"\n')),
    "core rules": Shape('s = "x"', ' ALPHA', '\n'),
}
RFC = {
    "prose": Shape('', 'Prose of a text, where a = b, and so on.\n'),
    "rules": Shape('', numbered('   r# = "a" r@\n')),
    "rules in prose": Shape('', numbered('   r# = "a"\n\nProse of a text, with words.\n\n')),
    "a rule of paragraphs": Shape('r = "a"\n', '\n  "b"\n'),
    "deep prose after a rule": Shape('r = "a"\n', '\n  prose is, here.\n'),
    "a rule of paragraphs, then prose": halves('r = "a"\n', '\n  "b"\n', '', '\n   p,\n', ''),
    "an open rule of paragraphs": Shape('r = (\n', '\n  "b"\n'),
    "open rules": Shape('', 'a = (\n\n'),
    "rules that do not read": Shape('', numbered('r# = (\nprose\n')),
    "lines of a rule": Shape('r = "a"\n', '  / "b"\n'),
    "a long line": Shape('r = "a"', ' / "b"', '\n'),
    "comments": Shape('r = "a"\n', '  ; a comment\n'),
    "fences": Shape('', numbered('```\nr# = "x"\n```\n')),
    "fences of other languages": Shape('', numbered('~~~ c\nr# = "x"\n~~~\n')),
    "open fences": Shape('', '``` c\n'),
    "open fences of two kinds": Shape('', '``` c\n~~~ c\n'),
    "shorter fences": lambda size: "".join("`" * it + "\n" for it in range(int((2 * size) ** 0.5) - 2, 2, -1)),
    "open title blocks": Shape('%%%\n', 'a %%%\n'),
    "open tags": Shape('', '<t a\n'),
    "tags": Shape('', numbered('<t a\n b>\nr# = "x"\n')),
    "pages": Shape('', numbered('r# = "x"\n\nAuthor   Track   [Page #]\n\f\nRules      May 2001\n\n')),
    "feet": Shape('', numbered('Author   Track   [Page #]\n')),
    "blank lines": Shape('r = "a"\n', '\n', 's = "b"\n'),
    "one rule again": Shape('', 'r = "a"\n'),
    "definitions of a name": Shape('', numbered('r = "a#"\n')),
    "prose that yields": Shape('r = "a"\n', numbered('r = <p#>\n')),
    "additions": Shape('r = "a"\n', numbered('r =/ "a#"\n')),
    "undefined names": Shape('', numbered('r# = u#\n')),
    "carriage returns": Shape('r = "a"\n', '\r', '\n'),
    "elements of XML": Shape('<rfc>\n', numbered('<artwork>\nr# = "x"\n</artwork>\n')),
    "open elements of XML": Shape('<rfc>\n', numbered('<artwork>\nr# = "x"\n')),
    "open tags of XML": Shape('<rfc>\n', '<artwork type="c" a='),
    "types of a tag of XML": Shape('<rfc><artwork ', 'type   type =', '>'),
    "open comments of XML": Shape('<rfc>\n', '<!-- a --'),
    "references of XML": Shape('<rfc><artwork>r = "', '&#0060;&lt;&b', '"\n'),
    "a long reference of XML": Shape('<rfc><artwork>r = "&#', '0', '"\n'),
    "CDATA of XML": Shape('<rfc><artwork>', '<![CDATA[ ]]]]>\n'),
}


def pieces_of(shape, size):
    """Returns what pieces a text of a shape and a size has."""
    if not callable(shape.piece):
        return [shape.piece] * (size // len(shape.piece) + 1)
    parts, length = [], 0
    while length < size:
        parts.append(shape.piece(len(parts)))
        length += len(parts[-1])
    return parts


def texts_of(shape, sizes, is_peg):
    """Returns the texts of a shape in these sizes, with arrows and comments of peg(1) if they are to have them."""
    parts = [] if callable(shape) else pieces_of(shape, sizes[-1])
    lengths = list(itertools.accumulate(len(it) + (it.count("=") if is_peg else 0) for it in parts))
    for size in sizes:
        if callable(shape):
            text = shape(size)
        else:
            room = size - len(shape.front) - (1100 if callable(shape.back) else len(shape.back) + 10)
            count = bisect.bisect_right(lengths, room)
            text = shape.front + "".join(parts[:count])
            text += shape.back(count) if callable(shape.back) else shape.back
        yield (text.replace("=", "<-").replace(";", "#") if is_peg else text).encode()
