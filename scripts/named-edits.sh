#!/bin/sh
# Every wrong program that docs/CONTRACTS.md names is there: *tried* in the crate's must-fail folder, *tried apart* in
# tests/wrong_programs. Prints those that are not, and fails if there is one.
set -u
cd "$(dirname "$0")/.." || exit 1

# The names behind a word, one to a line.
named() { # word
    grep -o "[*]$1[*]: \`[a-z_0-9/]*\`\(, \`[a-z_0-9/]*\`\)*" docs/CONTRACTS.md | grep -o '`[^`]*`' | tr -d '`' | sort -u
}

missing=$(
    named tried | while read -r edit; do
        [ -f "crates/${edit%/*}/must-fail/${edit#*/}.edit" ] || echo "not in the gate: $edit"
    done
    named 'tried apart' | while read -r edit; do
        [ -f "tests/wrong_programs/$edit.edit" ] || echo "not in tests/wrong_programs: $edit"
    done
)
[ -z "$missing" ] || { echo "$missing"; exit 1; }
