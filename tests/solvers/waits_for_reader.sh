#!/bin/sh
# Counts the checks in a file, and answers each but the first only when another file tells that nobody reads what the host says.
. "${0%/*}/common.sh"
at_check() {
    echo check >>"$CHECKS"
    [ "$(wc -l <"$CHECKS")" -eq 1 ] || until [ -e "$READER_GONE" ]; do sleep 0.1; done
    echo unsat
}
serve
