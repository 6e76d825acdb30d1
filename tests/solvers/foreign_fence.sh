#!/bin/sh
# Echoes the fence as it should, and the same mark once more behind the reply.
. "${0%/*}/common.sh"
at_fence() { fence=$1; echo "$1"; }
at_echo() { echo "$fence"; }
serve
