#!/bin/sh
# Killed after half a reply.
. "${0%/*}/common.sh"
at_check() { printf 'uns'; kill -KILL $$; }
serve
