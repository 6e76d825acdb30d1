#!/bin/sh
# Proves a sample plan with a real solver, from nothing: installs the solver where it is missing, builds library, host and tools.
set -eu
cd "$(dirname "$0")/.."
. scripts/install-missing.sh

sample=samples/siblings.plan
book=target/demo/siblings.book
goals=target/demo/siblings.goals
host=target/host/leskofar

say() { printf '\n== %s\n' "$1"; }

missing() { # command package
    echo "make demo needs $1 and cannot install it; as root, run: apt-get install $2" >&2
    exit 1
}

say 'What is needed'
command -v z3 >/dev/null 2>&1 || echo 'z3 is missing: installing the Debian package z3'
need z3 z3 || missing z3 z3
need cc gcc || missing cc gcc
need cargo cargo || missing cargo cargo
if [ -z "${LIB:-}" ] && ! command -v rt >/dev/null 2>&1; then
    echo 'make demo needs the Rattle kit, whose command is rt, to build the library' >&2
    exit 1
fi
z3 --version

say 'Library, host and tools'
make --no-print-directory host tools
mkdir -p target/demo

say "The plan: $sample"
cat "$sample"

say 'As a book, with the numbers of its goals: node, term, name'
reference/target/release/plan book "$sample" -o "$book" --goals | tee "$goals"
"$host" check "$book"

say 'The questions'
while read -r node term name; do
    echo "$name, at node $node:"
    "$host" print "$book" "$term"
done <"$goals"

say 'The answers'
# The numbers are meant to fall apart.
# shellcheck disable=SC2046
set -- $(cut -d ' ' -f 1,2 "$goals")
status=0
"$host" prove "$book" "$@" --solver z3 --log target/demo/siblings.smt2 || status=$?

# One of the three goals does not hold, and must not be proved.
some_not_proved=1
if [ "$status" -ne "$some_not_proved" ]; then
    echo "The answers are not those of the plan's comments: status $status" >&2
    exit 1
fi
printf '\nAs the plan says: the second goal does not hold at its node, although it holds at its sibling.\n'
echo 'What z3 was sent and what it answered is in target/demo/siblings.smt2.'
