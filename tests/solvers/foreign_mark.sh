#!/bin/sh
# Echoes a mark that is none of this question.
. "${0%/*}/common.sh"
at_echo() { echo leskofar-0; }
serve
