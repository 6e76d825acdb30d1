#!/bin/sh
# Parentheses that never close.
. "${0%/*}/common.sh"
at_check() { echo '((((unsat'; }
serve
