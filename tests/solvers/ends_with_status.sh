#!/bin/sh
# Ends with a status and last words.
. "${0%/*}/common.sh"
at_check() { echo 'out of patience' >&2; exit 7; }
serve
