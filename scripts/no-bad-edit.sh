#!/bin/sh
# Reads what rt ci said. An edit that cannot be applied or read fails nothing there, and is counted in its line 'rt: ok': fails where that
# line is missing or has ', N bad' with N above 0, and prints those edits.
set -u
ok=$(grep '^rt: ok' "$1") || { echo "rt ci has no line 'rt: ok'"; exit 1; }
echo "$ok" | grep -q ', [1-9][0-9]* bad' || exit 0
echo "$ok"
grep ': BAD EDIT: ' "$1"
exit 1
