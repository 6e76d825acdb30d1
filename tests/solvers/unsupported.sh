#!/bin/sh
# Supports no check.
. "${0%/*}/common.sh"
at_check() { echo unsupported; }
serve
