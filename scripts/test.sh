#!/bin/sh
# Runs every test and counts them all: each part ends in counts of its own, which are added up in the last line.
set -u
cd "$(dirname "$0")/.." || exit 1
. scripts/install-missing.sh
. scripts/counting.sh
. scripts/parts.sh

documents

part 'proofs, must-fail edits and programs'
counted 'rt ci' told_by rt ci
one 'no must-fail edit is bad' scripts/no-bad-edit.sh "$log.ci"
one 'must-fail edits are refused for a fact' scripts/refused-for-a-fact.sh "$log.ci"

reference
library

part 'the host, with z3, cvc5 and solvers that fail'
host_by_hand() { env PARTS='usage names symbols bad_names sorts samples nodes audit growth lines work depths faults attacks limits stack engines' tests/host.sh; }
host_at_random() { env PARTS='verdicts kills strangers mutants splices plans' tests/host.sh; }
# A host that is slower: fewer inputs, and for signals more time.
host_sanitized() {
    env HOST=target/host/leskofar-sanitized PLANS=20 OTHER_PLANS=5 VERDICTS=30 NODE_PLANS=5 NODE_CHANGES=30 AUDIT_STEP=6 GROWTH_CHANGES=20 WORK_PLANS=5 STRANGERS=10 MUTANTS=100 SPLICES=50 MOMENTS=25 LONGEST=200 STEP=10 tests/host.sh
}
# Under valgrind all is slower still: the samples, books that grow, and the solvers that fail, fewer bytes, and more patience.
host_valgrind() {
    memcheck='valgrind -q --error-exitcode=99 --leak-check=full --errors-for-leak-kinds=definite,indirect,possible'
    env HOST="$memcheck --child-silent-after-fork=yes --suppressions=tests/valgrind.supp target/host/leskofar" \
        PARTS='samples lines work faults' WORK_PLANS=2 PATIENCE=4 LARGE=2000000 tests/host.sh
}
if host_built; then
    host_pieces
    counted_beside 'host' host_by_hand 'host, at random' host_at_random
    part 'the host, under sanitizers and under valgrind'
    counted_beside 'host under sanitizers' host_sanitized 'host under valgrind' host_valgrind
    part 'installed'
    counted 'installed' tests/install.sh
    one 'make demo' make --no-print-directory demo
fi

close
