#!/bin/sh
# Fails the first time that it is started, and is z3 from then on.
. "${0%/*}/common.sh"
if [ -e "$ONCE" ]; then exec z3 -smt2 -in; fi
: >"$ONCE"
at_check() { exit 1; }
serve
