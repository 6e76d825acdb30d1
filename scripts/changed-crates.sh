#!/bin/sh
# Prints the crates whose files differ from those of a commit, a name to a line: BASE, else origin/main, else, in a checkout
# without it, the commit at which this checkout began.
set -u
cd "$(dirname "$0")/.." || exit 1

base=${BASE:-origin/main}
git rev-parse --verify --quiet "$base^{commit}" >/dev/null || base=$(git rev-list --walk-reflogs HEAD | tail -n 1)
[ -n "$base" ] || { echo 'changed-crates: no commit to compare with' >&2; exit 1; }

{
    git diff --name-only "$(git merge-base "$base" HEAD)" -- crates
    git ls-files --others --exclude-standard -- crates
} | sed -n 's|^crates/\([^/]*\)/.*|\1|p' | sort -u | while read -r crate; do
    if [ -d "crates/$crate/src" ]; then echo "$crate"; fi
done
