#!/bin/sh
# marpa.sh [NAME ..]: judges the lines of each benchmark by libmarpa, the engine in C of Debian's libmarpa-r2-perl.
# The trees of a line are asked for in the first round alone, which is not timed: there each line must be derived.
set -e
here=$(cd "$(dirname "$0")" && pwd)
top=${TMPDIR:-/tmp}/judge_bench.$(id -u)
object=$(dpkg -L libmarpa-r2-perl | grep '/R2\.so$')
mkdir -p "$top"
cc -O2 -o "$top/marpa" "$here/marpa.c" -ldl
for name in ${*:-date uri json alpha ss50 ss200 left right kw}; do
    python3 "$here/lines.py" "$name" | python3 "$here/marpa_rules.py" > "$top/$name.rules"
    echo "$name: $("$top/marpa" "$object" < "$top/$name.rules")"
done
