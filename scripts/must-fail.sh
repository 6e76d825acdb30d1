#!/bin/sh
# Tries the must-fail edits of the named crates, and of no other. With EDITS=FOLDER the edits are FOLDER/CRATE/*.edit instead, in a copy of
# the crates: they prove nothing for the gate and are wrong programs all the same.
# An edit passes if it is refused because a fact no longer holds. Ends with a line 'N passed, M failed'.
set -u
cd "$(dirname "$0")/.." || exit 1

room=$(mktemp -d) || exit 1
trap 'rm -rf "$room"' EXIT
said=$room/said
top=.
failed=0

# Of a crate that is not proved every edit is refused. What is kept of its proof here, each try begins with.
for crate in "$@"; do
    if ! (cd "crates/$crate" && rt check) >"$said" 2>&1; then
        grep 'error\|^rt: \|not proved' "$said"
        echo "$crate is not proved"
        failed=$((failed + 1))
    fi
done

if [ -n "${EDITS:-}" ]; then
    top=$room/copy
    mkdir "$top" || exit 1
    tar -c --exclude='crates/*/out' --exclude='crates/*/must-fail' crates crates.txt | tar -x -C "$top" || exit 1
    for crate in "$@"; do
        [ ! -d "$EDITS/$crate" ] || cp -R "$EDITS/$crate" "$top/crates/$crate/must-fail" || exit 1
    done
fi
edits=0
for crate in "$@"; do
    [ ! -d "$top/crates/$crate/must-fail" ] || edits=$((edits + $(find "$top/crates/$crate/must-fail" -name '*.edit' | wc -l)))
done

(cd "$top" && rt must-fail "$@") >"$said" 2>&1
status=$?
grep '^rt: \|error' "$said"
shapes=$(scripts/refused-for-a-fact.sh "$said" | wc -l)
refused=$(($(grep -c '^rt: must-fail .*: refused, as it must be' "$said") - shapes))
# An edit that never came to be tried has failed too.
failed=$((failed + edits - refused))
[ "$status" -eq 0 ] || [ "$failed" -gt 0 ] || failed=1
echo "$refused passed, $failed failed"
[ "$failed" -eq 0 ]
