#!/bin/sh
# Silent at the check, with a helper that is nobody's child any more and has left the session; it keeps the output open.
. "${0%/*}/common.sh"
(setsid sh -c 'echo $$ >>"$SOLVER_PIDS"; trap "" HUP INT TERM; exec sleep 1000' &)
at_check() { sleep 1000; }
serve
