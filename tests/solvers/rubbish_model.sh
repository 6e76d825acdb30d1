#!/bin/sh
# A model that is none.
. "${0%/*}/common.sh"
at_check() { echo sat; }
at_model() { echo sat sat; }
serve
