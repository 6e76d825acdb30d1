#!/bin/sh
# Does not know, and has a model all the same.
. "${0%/*}/common.sh"
at_check() { echo unknown; }
serve
