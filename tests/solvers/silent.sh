#!/bin/sh
# Silent until the time-out, with a helper that would outlive it.
. "${0%/*}/common.sh"
start_helper
at_check() { sleep 1000; }
serve
