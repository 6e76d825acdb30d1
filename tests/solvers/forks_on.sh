#!/bin/sh
# Silent at the check, with a helper that starts the next one in a new session and ends, and so on for some seconds.
if [ "${1:-0}" -gt 0 ]; then
    setsid "$0" $(($1 - 1)) &
    echo $! >>"$SOLVER_PIDS"
    exit
fi
. "${0%/*}/common.sh"
[ "${1:-}" = 0 ] && exit
"$0" 5000
at_check() { sleep 1000; }
serve
