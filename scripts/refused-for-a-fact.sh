#!/bin/sh
# Reads what rt ci or rt must-fail said. An edit that is refused only because a proof file names what it took away shows nothing of a
# contract; rt says so, and counts it as refused. So does an edit whose first error is a name that is missing. Prints those edits, and fails
# if there is one.
set -u
! grep -E '^rt: must-fail .*: refused, as it must be(: .*(has no field|that can be named from here|is not in scope)| \(only because a proof file names)' "$1"
