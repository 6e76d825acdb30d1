#!/bin/sh
# A comment beside the reply.
. "${0%/*}/common.sh"
at_check() { echo '; by luck'; echo unsat; }
serve
