#!/bin/sh
# A model with a quote in a name, which nothing closes.
. "${0%/*}/common.sh"
at_check() { echo sat; }
at_model() { echo '((define-fun a"b () Int 1))'; }
serve
