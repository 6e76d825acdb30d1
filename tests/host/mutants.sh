# Plans that were changed at random, by a slip or with intent. Which of their goals must never be proved was worked out from the texts,
# without the tool for plans, the host or a solver.

mkdir -p "$work/mutants"
"$TOOLS/mutants" "$work/mutants" "$MUTANTS" "$MUTANTS_SEED" || exit 1

# A plan as a book. One that is refused for its names or sorts becomes one all the same: such a book may come from elsewhere, and the
# host has to find out by itself.
mutant_book() { # where
    "$TOOLS/plan" book "$1.plan" -o "$1.book" --goals >"$1.goals" 2>"$1.err" && return
    status=$?
    [ "$status" -eq 1 ] || return "$status"
    "$TOOLS/plan" book "$1.plan" -o "$1.book" --goals --raw-names --raw-sorts >"$1.goals" 2>>"$1.err" || return "$status"
}

# One plan to its book, and all of its goals to z3. What came of it goes into N.result.
try_mutant() { # where
    mutant_book "$1" || {
        echo "plan $?"
        return
    }
    pairs=
    while read -r node term _; do
        pairs="$pairs $node $term"
    done <"$1.goals"
    [ -n "$pairs" ] || return
    # shellcheck disable=SC2086
    timeout "$HANGS_AFTER" $HOST prove "$1.book" $pairs --solver z3 --timeout "$MUTANT_PATIENCE" >"$1.out" 2>"$1.err" </dev/null
    echo "host $?"
}

# Every second one from the first on, so that two rows of runs go side by side.
try_mutants() { # first
    mutant=$1
    while [ "$mutant" -le "$MUTANTS" ]; do
        try_mutant "$work/mutants/$mutant" >"$work/mutants/$mutant.result"
        mutant=$((mutant + 2))
    done
}
try_mutants 1 &
try_mutants 2 &
wait

# A line for each fault, and last the counts.
awk -v count="$MUTANTS" -v at="$work/mutants/" -f tests/host/mutants.awk >"$work/judged" || fail 'mutants' 'they were not judged'
sed '$d' "$work/judged"
read -r faults by_plan by_host asked goals proved known <<COUNTS
$(tail -n 1 "$work/judged")
COUNTS
echo "$MUTANTS mutants: $by_plan refused by plan, $by_host by the host, $asked asked with $goals goals; $proved proved," \
    "$known with a known counterexample, $faults faults"
failed=$((failed + faults))
passed=$((passed + MUTANTS - faults))

# Else nothing is shown.
[ "$asked" -ge $((MUTANTS / 5)) ] && passed=$((passed + 1)) || fail 'mutants' 'too few are asked'
[ "$known" -ge $((MUTANTS / 20)) ] && passed=$((passed + 1)) || fail 'mutants' 'too few goals with a known counterexample are asked'
[ "$proved" -ge $((MUTANTS / 20)) ] && passed=$((passed + 1)) || fail 'mutants' 'too few goals are proved'
