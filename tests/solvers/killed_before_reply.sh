#!/bin/sh
# Killed before the reply.
. "${0%/*}/common.sh"
at_check() { kill -KILL $$; }
serve
