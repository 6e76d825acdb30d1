#!/bin/sh
# Answers as it should, and counts the checks in a file.
. "${0%/*}/common.sh"
at_check() { echo check >>"$CHECKS"; echo unsat; }
serve
