#!/bin/sh
# Says something on its standard error at each check, and answers as it should.
. "${0%/*}/common.sh"
at_check() { echo 'an aside' >&2; echo unsat; }
serve
