#!/bin/sh
# Echoes, and replies nothing.
. "${0%/*}/common.sh"
at_check() { :; }
serve
