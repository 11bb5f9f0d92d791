#!/bin/sh
# Prints what the calls of the library for C cost, a row each: docs/BENCHMARKS.md, 'Calls of the library'. `make lib`
# comes before it. CC names the compiler.
#
# usage: library_bench.sh
cd "$(dirname "$0")/../.." || exit 2
made=$(mktemp -d) || exit 2
trap 'rm -rf "$made"' EXIT
${CC:-cc} -O2 -I c -o "$made/bench" c/tests/bench.c bin/libfanquber.a || exit 2
printf 'a = "x"\n' > "$made/x.abnf"
uri=examples/rfc3986/rfc3986.abnf
json=examples/json/json.peg
line='http://www.example.org/a/b?c=d#ef'
lf='
'
"$made/bench" \
    abnfi $uri "$line$lf" check abnfi $uri "$line$lf" 1 abnfi $uri "$line$lf" 1000 \
    cold $uri "$line" 0 cold $uri "$line" 1 judge $uri "$line" 1 judge $uri "$line" 1000 \
    abnfi "$made/x.abnf" "x$lf" 1 abnfi "$made/x.abnf" "x$lf" 1000 judge "$made/x.abnf" x 1 \
    pegi $json '[1,2]' check pegi $json '[1,2]' 1 windows $json '[1,2]' 1 windows $json '[1,2]' 1000 \
    runner $json '[1,2]' 1 runner $json '[1,2]' 1000
