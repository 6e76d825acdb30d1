#!/bin/sh
# Killed at the model.
. "${0%/*}/common.sh"
at_check() { echo sat; }
at_model() { printf '((define-fun x () Int '; kill -KILL $$; }
serve
