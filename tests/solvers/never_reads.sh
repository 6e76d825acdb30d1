#!/bin/sh
# Never reads its input.
. "${0%/*}/common.sh"
sleep 1000
