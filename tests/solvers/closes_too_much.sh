#!/bin/sh
# A parenthesis too many.
. "${0%/*}/common.sh"
at_check() { echo ')unsat'; }
serve
