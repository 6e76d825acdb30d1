#!/bin/sh
# Endless output.
. "${0%/*}/common.sh"
at_check() { exec yes unsat; }
serve
