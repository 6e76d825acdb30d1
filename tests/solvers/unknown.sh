#!/bin/sh
# Knows nothing, and has no model.
. "${0%/*}/common.sh"
at_check() { echo unknown; }
at_model() { echo '(error "there is no model")'; }
serve
