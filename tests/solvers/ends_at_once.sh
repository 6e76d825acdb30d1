#!/bin/sh
# Ends at once, as if all were well.
. "${0%/*}/common.sh"
exit 0
