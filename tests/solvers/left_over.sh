#!/bin/sh
# Answers the first question twice, the second time too late, and later ones not at all.
. "${0%/*}/common.sh"
is_first=yes
at_check() { [ "$is_first" = no ] || echo unsat; }
at_echo() {
    echo "$1"
    [ "$is_first" = no ] || echo unsat
    is_first=no
}
serve
