"""The rows of run.py: each a grammar for pegi, the same for peg(1) with actions in C, the same for LPeg, and an input.
All three print the same text."""
import random

# What the actions of peg(1)'s grammars print: a text and a line feed, or the text of the capture.
SAY = "fputs(\"%s\\n\", stdout);"
CAPTURED = "fwrite(yytext, 1, yyleng, stdout); putchar('\\n');"

USERNAME = r"""start <- "username" {USER} / < . > {yytext}
"""
CALCULATOR = r"""line    <- space sum '\n'                { = }
sum     <- product ( '+' space product   { + }
                   / '-' space product   { - } )*
product <- value   ( '*' space value     { * }
                   / '/' space value     { / } )*
value   <- < [0-9]+ > space              { yytext }
         / '(' space sum ')' space
space   <- [ \t]*
"""
JSON = r"""document <- < space value space > !. { yyleng }
value    <- object / array / string / number / "true" / "false" / "null"
object   <- '{' space ( pair space ( ',' space pair space )* )? '}'
pair     <- string space ':' space value
array    <- '[' space ( value space ( ',' space value space )* )? ']'
string   <- '"' char* '"'
char     <- [^"\\\000-\037] / '\\' ( ["\\/bfnrt] / 'u' hex hex hex hex )
number   <- '-'? ( '0' / [1-9] [0-9]* ) ( '.' [0-9]+ )? ( [eE] [-+]? [0-9]+ )?
hex      <- [0-9a-fA-F]
space    <- [ \t\n\r]*
"""
WORDS = r"""word <- < [a-z]+ > { yytext } / [ \n]
"""
AHEAD = r"""unit <- &rest word
word <- < [a-z]+ > { yytext } / [ \n]
rest <- ( !'\n' . )* ( '\n' / !. )
"""

# What stands before each of LPeg's programs, and after it: `all` matches the units one after another.
LUA_HEAD = """local l = require "lpeg"
local P, R, S, C, Cc, Ct, Cp, V = l.P, l.R, l.S, l.C, l.Cc, l.Ct, l.Cp, l.V
l.setmaxstack(10000000)
local text = io.read "a"
"""
LUA_LINES = """local all = l.match(Ct(unit ^ 0), text)
if #all > 0 then io.write(table.concat(all, "\\n"), "\\n") end
"""
LUA_USERNAME = """local unit = P "username" / "USER\\n" + P(1) / "%0\\n"
io.write(l.match(l.Cs(unit ^ 0), text))
"""
LUA_CALCULATOR = """local space = S " \\t" ^ 0
local unit = P { "line",
  line = space * V "sum" * "\\n" * Cc "=",
  sum = V "product" * ("+" * space * V "product" * Cc "+" + "-" * space * V "product" * Cc "-") ^ 0,
  product = V "value" * ("*" * space * V "value" * Cc "*" + "/" * space * V "value" * Cc "/") ^ 0,
  value = C(R "09" ^ 1) * space + "(" * space * V "sum" * ")" * space,
}
""" + LUA_LINES
LUA_JSON = """local space, hex = S " \\t\\n\\r" ^ 0, R("09", "af", "AF")
local char = (P(1) - S '"\\\\' - R "\\0\\31") + "\\\\" * (S '"\\\\/bfnrt' + "u" * hex * hex * hex * hex)
local str = '"' * char ^ 0 * '"'
local number = P "-" ^ -1 * ("0" + R "19" * R "09" ^ 0) * ("." * R "09" ^ 1) ^ -1
  * (S "eE" * S "-+" ^ -1 * R "09" ^ 1) ^ -1
local document = P { "document",
  document = space * V "value" * space * Cp() * -1,
  value = V "object" + V "array" + str + number + "true" + "false" + "null",
  object = "{" * space * (V "pair" * space * ("," * space * V "pair" * space) ^ 0) ^ -1 * "}",
  pair = str * space * ":" * space * V "value",
  array = "[" * space * (V "value" * space * ("," * space * V "value" * space) ^ 0) ^ -1 * "]",
}
io.write(l.match(document, text) - 1, "\\n")
"""
LUA_WORDS = """local unit = C(R "az" ^ 1) + S " \\n"
""" + LUA_LINES
LUA_AHEAD = """local rest = (P(1) - "\\n") ^ 0 * (P "\\n" + -P(1))
local unit = #rest * (C(R "az" ^ 1) + S " \\n")
""" + LUA_LINES


def of_peg(grammar, actions):
    """Returns a grammar with these actions of C in place of its own."""
    for own, said in actions:
        grammar = grammar.replace(own, "{ " + said + " }")
    return grammar


def letters(size):
    return "eusername and more " * (size // 18)


def words(size):
    it = random.Random(2)
    lines = []
    while sum(map(len, lines)) < size:
        chosen = (it.choice(("the", "quick", "brown", "fox", "jumps", "over", "lazy", "dogs")) for _ in range(10))
        lines.append(" ".join(chosen) + "\n")
    return "".join(lines)


def sums(size):
    it, lines, made = random.Random(3), [], 0

    def value(depth):
        if depth > 0 and it.random() < 0.25:
            return "(" + total(depth - 1) + ")"
        return str(it.randrange(10000))

    def total(depth):
        text = value(depth)
        for _ in range(it.randrange(4)):
            text += it.choice((" + ", " - ", "*", " / ")) + value(depth)
        return text
    while made < size:
        lines.append(total(3) + "\n")
        made += len(lines[-1])
    return "".join(lines)


def json(size):
    it, parts, made = random.Random(4), [], 0

    def value(depth):
        kind = it.randrange(7) if depth > 0 else it.randrange(2, 7)
        if kind == 0:
            return "{" + ", ".join(f"{name()}: {value(depth - 1)}" for _ in range(it.randrange(1, 6))) + "}"
        if kind == 1:
            return "[" + ", ".join(value(depth - 1) for _ in range(it.randrange(1, 6))) + "]"
        if kind in (2, 3):
            return name()
        if kind in (4, 5):
            return str(it.randrange(-1000, 100000) / it.choice((1, 8)))
        return it.choice(("true", "false", "null"))

    def name():
        return '"' + "".join(it.choice("abcdefghijklmnopqrstuvwxyz     ") for _ in range(it.randrange(4, 24))) + '"'
    while made < size:
        parts.append(value(4))
        made += len(parts[-1]) + 2
    return "[" + ",\n".join(parts) + "]\n"


# A name, the options of pegi, the three grammars, and what makes an input of some size.
ROWS = (
    ("username", [], USERNAME, of_peg(USERNAME, [("{USER}", SAY % "USER"), ("{yytext}", CAPTURED)]), LUA_USERNAME,
     letters),
    ("calculator", [], CALCULATOR, of_peg(CALCULATOR, [("{ %s }" % it, SAY % it) for it in "=+-*/"] +
                                          [("{ yytext }", CAPTURED)]), LUA_CALCULATOR, sums),
    ("json", ["-l", "16777216"], JSON, of_peg(JSON, [("{ yyleng }", "printf(\"%d\\n\", yyleng);")]), LUA_JSON, json),
    ("words", [], WORDS, of_peg(WORDS, [("{ yytext }", CAPTURED)]), LUA_WORDS, words),
    ("ahead", [], AHEAD, of_peg(AHEAD, [("{ yytext }", CAPTURED)]), LUA_AHEAD, words),
)
