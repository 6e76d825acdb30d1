#!/bin/sh
# Stops at the check, with a helper that has stopped too.
. "${0%/*}/common.sh"
start_helper
kill -STOP "$!"
at_check() { kill -STOP $$; }
serve
