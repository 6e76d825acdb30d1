#!/bin/sh
# Tries the wrong programs of tests/wrong_programs: more edits that the prover must refuse, too many for the gate.
# With words: those of the named crates. Ends with a line 'N passed, M failed'.
set -u
cd "$(dirname "$0")/.." || exit 1
[ $# -gt 0 ] || set -- $(cd tests/wrong_programs && ls)
EDITS=tests/wrong_programs exec scripts/must-fail.sh "$@"
