#!/bin/sh
# Answers one question, and then closes its input without ending.
. "${0%/*}/common.sh"
at_echo() {
    exec <&-
    echo "$1"
    sleep 1000
}
serve
