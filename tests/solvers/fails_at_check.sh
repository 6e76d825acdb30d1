#!/bin/sh
# A real solver, named by FALLIBLE, in whose place another one dies the first time, at check FAILS_AT.
. "${0%/*}/common.sh"
real() {
    case $FALLIBLE in
        z3) exec z3 -smt2 -in ;;
        cvc5) exec cvc5 --lang=smt2 --incremental --produce-models --force-logic=ALL ;;
    esac
}
if [ -e "$ONCE" ]; then real; fi
: >"$ONCE"
# Lines go to the real one until the check at which all of this ends.
checks=0
while IFS= read -r line; do
    if [ "$line" = '(check-sat)' ]; then
        checks=$((checks + 1))
        [ "$checks" -lt "$FAILS_AT" ] || kill -KILL 0
    fi
    printf '%s\n' "$line"
done | real
