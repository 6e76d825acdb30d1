#!/bin/sh
# A first line that no solver writes.
. "${0%/*}/common.sh"
at_check() { echo 'Welcome to the solver'; echo unsat; }
serve
