#!/bin/sh
# Rubbish, with every byte value and nothing balanced.
. "${0%/*}/common.sh"
at_check() { head -c 100000 /dev/urandom; echo; }
serve
