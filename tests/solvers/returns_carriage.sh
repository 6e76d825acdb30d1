#!/bin/sh
# A model in which a carriage return ends a comment: what stands behind it is no command of the log.
. "${0%/*}/common.sh"
at_check() { echo sat; }
at_model() { printf '(; a comment\r(assert false)\n)\n'; }
serve
