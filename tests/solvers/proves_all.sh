#!/bin/sh
# Answers as it should, unsat to everything.
. "${0%/*}/common.sh"
serve
