#!/bin/sh
# Replies twice: what is too much must not answer the next question.
. "${0%/*}/common.sh"
at_check() { echo sat; }
at_model() { echo "((define-fun x () Int 1))"; }
at_echo() { echo "$1"; echo unsat; }
serve
