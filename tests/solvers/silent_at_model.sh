#!/bin/sh
# Silent at the model.
. "${0%/*}/common.sh"
at_check() { echo sat; }
at_model() { sleep 1000; }
serve
