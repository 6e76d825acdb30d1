#!/bin/sh
# Closes its input at once.
. "${0%/*}/common.sh"
exec <&-
sleep 1000
