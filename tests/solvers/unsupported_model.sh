#!/bin/sh
# Supports no model.
. "${0%/*}/common.sh"
at_check() { echo sat; }
at_model() { echo unsupported; }
serve
