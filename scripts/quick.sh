#!/bin/sh
# The gate's quick form, for the hours of work: what changed, and a tenth of the random inputs. It ends as the gate does.
set -u
cd "$(dirname "$0")/.." || exit 1
. scripts/install-missing.sh
. scripts/counting.sh
. scripts/parts.sh

documents

# It leaves program script and the library in out/, and tells of the layout too.
part 'proofs and programs, over what earlier checks kept'
one 'rt all test' told_by rt all test

part 'must-fail edits of the crates that changed'
changed=$(scripts/changed-crates.sh)
echo "changed: $(echo "${changed:-none}" | tr '\n' ' ')"
if [ -n "$changed" ]; then
    # The names are meant to fall apart.
    # shellcheck disable=SC2086
    counted 'must-fail edits' scripts/must-fail.sh $changed
fi

reference
library tenth

part 'the host, samples, solvers that fail and attacks, once'
if host_built; then
    host_pieces
    counted 'host' env PARTS='samples faults attacks' tests/host.sh
fi
part_ended

cat <<'LEFT'

Left out, and run by make test: the proofs of unchanged crates from nothing, the must-fail edits of unchanged crates, nine
tenths of the comparison's random inputs, the host's other groups (tests/host), the host under sanitizers and under valgrind,
the installed library, and the demo.
LEFT

close
