#!/bin/sh
# Silent at the check, with a helper that has left the session, and with it the group.
. "${0%/*}/common.sh"
setsid sh -c 'echo $$ >>"$SOLVER_PIDS"; trap "" HUP INT TERM; exec sleep 1000' &
at_check() { sleep 1000; }
serve
