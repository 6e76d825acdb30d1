#!/bin/sh
# z3 that dies, with all that belongs to it, behind a byte of its output.
. "${0%/*}/common.sh"
z3 -smt2 -in | {
    dd bs=1 count="$CUT_OFF" 2>/dev/null
    kill -KILL 0
}
