#!/bin/sh
# Endless output to its standard error, and no reply.
. "${0%/*}/common.sh"
at_check() { yes trouble >&2; }
serve
