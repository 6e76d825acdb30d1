# Random books that are told apart: z3 and cvc5 know every name in their texts, whatever they answer. Where two constants of one name are
# live at once, both complain.

mkdir -p "$work/apart"
"$TOOLS/apart" "$work/apart" "$STRANGERS" || exit 1

# All questions of a book.
ask_apart() { # book solver [option...]
    questions=$(cat "$work/apart/$1.questions")
    apart_book=$work/apart/$1.book
    solver=$2
    shift 2
    # shellcheck disable=SC2086
    run prove "$apart_book" $questions --solver "$solver" --timeout "$STRANGER_PATIENCE" --log "$work/apart.log" "$@"
}

declared=0
answered=0
questions_count=0
number=1
while [ "$number" -le "$STRANGERS" ]; do
    for solver in z3 cvc5; do
        ask_apart "$number" "$solver"
        expect_not "book $number with $solver" '(error'
        count=$(grep -c '' "$work/apart/$number.questions")
        [ "$(grep -c '^node ' "$out")" -eq "$count" ] && passed=$((passed + 1)) || fail "book $number with $solver" "$(cat "$out" "$err")"
        questions_count=$((questions_count + count))
        answered=$((answered + $(grep -c '^node .*: \(Proved\|Unproved (\)' "$out")))
        declared=$((declared + $(grep -c '^(declare-' "$work/apart.log")))
    done
    number=$((number + 1))
done
echo "$STRANGERS books that are told apart, with both solvers: $declared declarations, $answered of $questions_count questions answered"

# Else nothing is shown.
[ "$declared" -ge "$STRANGERS" ] && passed=$((passed + 1)) || fail 'books that are told apart' 'too few declarations'
[ $((2 * answered)) -ge "$questions_count" ] && passed=$((passed + 1)) || fail 'books that are told apart' 'too few answers'

for solver in z3 cvc5; do
    ask_apart clash "$solver"
    expect "a clash with $solver" 2 'are both called dye'
    ask_apart clash "$solver" --raw-names
    expect "a clash with $solver, names raw" 3 '(error' 'dye'
done
