#!/bin/sh
# Replies that only look like unsat.
. "${0%/*}/common.sh"
at_check() { echo unsat-core; }
serve
