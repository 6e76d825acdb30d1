#!/bin/sh
# Wants more memory than the tests give it.
. "${0%/*}/common.sh"
at_check() { dd if=/dev/zero of=/dev/null bs=200M count=1 && echo unsat; }
serve
