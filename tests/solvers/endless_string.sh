#!/bin/sh
# A string that never ends.
. "${0%/*}/common.sh"
at_check() { printf 'sat "'; exec yes; }
serve
