#!/bin/sh
# Checks grammars, and writes what is found on standard error, as `FILE:LINE:COLUMN: SEVERITY: MESSAGE [CODE]`.
#
# usage: check_grammars.sh pegi|abnfi FILE..

program=$1
shift
exec "$program" --mode=check --format=gcc -- "$@"
