#!/bin/sh
# run.sh [NAME ..]: builds the program in a copy of the crates, and judges the lines of each benchmark.
set -e
here=$(cd "$(dirname "$0")" && pwd)
top=${TMPDIR:-/tmp}/judge_bench.$(id -u)
mkdir -p "$top"
rm -rf "$top/crates"
cp -r "$here/../../../crates" "$top/crates"
cp "$here/../../../crates.txt" "$top/crates.txt"
echo 'judge_bench: abnfcheck abnfread flatgrammar lowering earley ruletable' >> "$top/crates.txt"
mkdir -p "$top/crates/judge_bench/src"
cp "$here/program.txt" "$top/crates/judge_bench/src/main.rt"
cd "$top/crates/judge_bench"
for name in ${*:-date uri json alpha ss50 ss200 left right kw dense dense2500 both right10k}; do
    python3 "$here/lines.py" "$name" > "$top/$name.in"
    echo "$name: $(rt run < "$top/$name.in" 2> "$top/$name.err" | sort -n | head -1)"
done
