#!/bin/sh
# Replies before it is asked, in one breath with the fence's mark, and not to the check.
. "${0%/*}/common.sh"
at_check() { :; }
at_fence() { printf '%s\nunsat\n' "$1"; }
serve
