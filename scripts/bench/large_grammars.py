#!/usr/bin/env python3
"""Writes grammars of a megabyte, and two inputs, into the current folder: those of docs/BENCHMARKS.md.

usage: large_grammars.py
"""
from random import randrange, seed


def put(name, *parts):
    with open(name, "w") as out:
        out.write("".join(parts))


n = range(20000)
put('chain.peg', *[f"r{i:05} <- r{i:05} 'x' / r{min(i+1,19999):05} 'y' / 'b'\n" for i in n])
put('optional.peg', 'S <- ', 'A? '*349000, "\nA <- 'a'\n")
rules = [f"r{i:05} <- [a-z] 'x\\n' r{i+1:05}? / 'b' {{a}} !. .\n" for i in n[:-1]]
put('sound.peg', *rules, "r19999 <- 'z'\n", '#'*148607)
put('sound.abnf', *[f'r{i:05} = *(DIGIT r{min(i+1,19999):05} / %x41-5A "abcdefgh" ALPHA)\n' for i in n])
put('unused.peg', 'S <- .\n', *[f"r{i:05} <- 'a'\n" for i in n])
put('undefined.peg', 'S <- ', ' '.join(f'u{i:05}' for i in n), '\n')
put('twice.peg', 'S <- .\n', *[f"r{i:05} <- 'a'\nr{i:05} <- 'b'\n" for i in n])
put('left.peg', 'S <- .\n', *[f"r{i:05} <- r{i:05} 'a'\n" for i in n])
put('deep.peg', "S <- T !.\nT <- '(' T ')' / 'a'\n"); put('deep.in', '('*10**6, 'a', ')'*10**6)
put('ini.peg', r"""file <- line* !. { ok }
line <- space (section / pair)? space comment? end
section <- '[' name ']'
pair <- name space '=' space value
name <- [a-zA-Z0-9_.]+
value <- (!(space comment? end) .)*
comment <- ';' (!end .)*
space <- [ \t]*
end <- '\n'
""")
seed(1)
pairs = ''.join(f'key_{randrange(100)} = some value of {randrange(1000)} words ; why\n' for _ in range(20))
put('ini.in', ('[section]\n'+pairs)*(12*10**6//(len(pairs)+10)))
