#!/bin/sh
# Ends at the check, while a helper keeps its output open.
. "${0%/*}/common.sh"
at_check() {
    start_helper
    exit 7
}
serve
