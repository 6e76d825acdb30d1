#!/bin/sh
# Killed behind the reply, before its echo.
. "${0%/*}/common.sh"
at_echo() { kill -KILL $$; }
serve
