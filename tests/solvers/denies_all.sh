#!/bin/sh
# Answers as it should, sat to everything.
. "${0%/*}/common.sh"
at_check() { echo sat; }
serve
