#!/bin/sh
# Runs each folder of examples/ by the command in its run.sh, with the programs of bin/. It must print the folder's
# printed.txt, write its reported.txt on the error output, or nothing where there is none, and end with the status in
# its file status, or else 0. `make programs` builds the programs; a folder whose program is not built is skipped.
set -eu
cd "$(dirname "$0")/../.."
made=$(mktemp -d)
trap 'rm -rf "$made"' EXIT
PATH=$PWD/bin:$PATH

for folder in examples/*/; do
    name=$(basename "$folder")
    read -r program rest < "$folder/run.sh"
    [ -x "bin/$program" ] || { echo "$name: $program: not built: skipped"; continue; }
    status=0
    (cd "$folder" && sh run.sh) > "$made/out" 2> "$made/err" || status=$?
    wanted=0
    [ ! -f "$folder/status" ] || wanted=$(cat "$folder/status")
    reported=/dev/null
    [ ! -f "$folder/reported.txt" ] || reported=$folder/reported.txt
    [ "$status" = "$wanted" ] || { cat "$made/err" >&2; echo "$name: status $status" >&2; exit 1; }
    cmp "$made/err" "$reported"
    cmp "$made/out" "$folder/printed.txt"
    echo "$name: as it must be"
done
