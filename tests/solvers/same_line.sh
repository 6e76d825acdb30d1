#!/bin/sh
# The reply and the mark on one line.
. "${0%/*}/common.sh"
at_check() { printf 'unsat '; }
serve
