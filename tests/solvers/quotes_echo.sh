#!/bin/sh
# Echoes with quotes, as SMT-LIB 2.6 has it.
. "${0%/*}/common.sh"
at_echo() { echo "\"$1\""; }
serve
