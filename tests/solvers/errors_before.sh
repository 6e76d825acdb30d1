#!/bin/sh
# An error for an earlier command, with a quote in it as z3 writes it, then unsat.
. "${0%/*}/common.sh"
at_other() {
    case $1 in
        '(assert '*) printf '%s\n' '(error "line 3: unknown constant a\"b")' ;;
    esac
}
serve
