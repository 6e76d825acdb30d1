# A plan of four hundred steps below each other, as deep as a book may be: what is said of it, and what solvers are sent. And one step more.

DEPTH=400
TOO_DEEP='a node is deeper than 400'
deep=$work/depths
mkdir -p "$deep"
awk -v depth="$DEPTH" -v to="$deep/steps" -f tests/host/depths.awk || exit 1
book=$deep/steps.book
"$TOOLS/plan" book "$deep/steps.plan" -o "$book" --goals >"$deep/goals" || exit 1
pairs=$(cut -d ' ' -f 1,2 "$deep/goals" | tr '\n' ' ')
last=${pairs%% *}
goal=$(echo "$pairs" | cut -d ' ' -f 2)

run check "$book"
expect 'a plan 400 deep' 0 'a good book'
run nodes "$book"
expect_said 'its nodes' 0 "$DEPTH nodes can be reached"
run trace "$book" "$last"
expect_said 'the trace 400 deep' 0 "$(cat "$deep/steps.trace")"
run listing "$book" "$last" "$goal"
expect_said 'the listing 400 deep' 0 "$(cat "$deep/steps.listing")"

# The two that are not proved: at the step before the last, whose trace has all others, and at step 64, with a trace at every second.
NARROW_TRACES=32
expect_traces() {
    sed -n 's/^      \(step [0-9]*\)$/  \1/p' "$out" >"$deep/traced"
    {
        sed '$d' "$deep/steps.trace"
        head -n "$NARROW_TRACES" "$deep/steps.trace"
    } | cmp -s - "$deep/traced" && passed=$((passed + 1)) || fail "$1" 'other traces'
}

for solver in z3 cvc5; do
    # The pairs are meant to fall apart.
    # shellcheck disable=SC2086
    run prove "$book" $pairs --solver "$solver" --log "$deep/log"
    expect "400 steps with $solver" 1
    expect_results "400 steps with $solver" 'Proved Unproved Proved Unproved Proved'
    expect_solvers "400 steps with $solver" "$deep/log" 1
    # The script as it was worked out asks for no models.
    script_of "$deep/log" | grep -vx '(get-model)' >"$deep/sent"
    cmp -s "$deep/sent" "$deep/steps.script" && passed=$((passed + 1)) ||
        fail "400 steps with $solver" "another text: $(diff "$deep/sent" "$deep/steps.script" | head -5)"
    expect_traces "400 steps with $solver"
done
# An audit takes the script as it was worked out, and not without its deepest premise.
# shellcheck disable=SC2086
run audit "$book" "$deep/steps.script" $pairs
expect_said 'an audit 400 deep' 0 'accepted'
check=$(grep -nx '(check-sat)' "$deep/steps.script" | sed -n '1s/:.*//p')
premise=$(head -n $((check - 4)) "$deep/steps.script" | grep -n '^(assert' | sed -n '$s/:.*//p')
sed "${premise}d" "$deep/steps.script" >"$deep/changed"
# shellcheck disable=SC2086
run audit "$book" "$deep/changed" $pairs
expect_said 'an audit without a premise 400 deep' 1 "rejected: check-sat 1 at line $((check - 1)), node $last, term $goal"
run prove "$book" "$last" "$goal" --premises --show-proof-obligations
expect '400 steps, premises and listing' 0 ': Proved'
expect_not '400 steps, premises and listing' 'contradict'
sed '$d' "$out" | cmp -s - "$deep/steps.listing" && passed=$((passed + 1)) || fail '400 steps, premises and listing' 'another listing'

# Stand-ins. A solver that takes over from one that failed is sent the way down anew.
for answer in 'proves_all 0 Proved' 'denies_all 1 Unproved'; do
    # shellcheck disable=SC2086
    set -- $answer
    # shellcheck disable=SC2086
    run prove "$book" $pairs --solver "tests/solvers/$1.sh"
    expect "400 steps with $1" "$2"
    expect_results "400 steps with $1" "$3 $3 $3 $3 $3"
done
rm -f "$ONCE"
run prove "$book" "$last" "$goal" "$last" "$goal" --solver tests/solvers/fails_once.sh --log "$deep/log"
expect '400 steps and a solver that fails once' 3 'Unproved, the solver failed'
expect_results '400 steps and a solver that fails once' 'Unproved Proved'
expect_solvers '400 steps and a solver that fails once' "$deep/log" 2
# The log has what was not answered as a comment.
for sent in '(push 1)' '; (push 1)'; do
    [ "$(grep -cxF "$sent" "$deep/log")" -eq $((DEPTH + 2)) ] && passed=$((passed + 1)) ||
        fail '400 steps and a solver that fails once' "not each level by '$sent'"
done

# One step more. A book has it hanging from the root, until its parent is changed to the last step.
sed '/^(goal /d' "$deep/steps.plan" >"$deep/more.plan"
echo '(node more root p0)' >>"$deep/more.plan"
"$TOOLS/plan" book "$deep/more.plan" -o "$deep/more.book" || exit 1
run check "$deep/more.book"
expect 'a step more beside the others' 0 'a good book'
# Where the contexts are, whose records have three numbers.
contexts=$(od -An -v -tu4 -w8 -N80 "$deep/more.book" | awk -v section="$CONTEXTS" 'NR == section { print $1 }')
printf "\\$(printf '%03o' $((DEPTH % 256)))\\$(printf '%03o' $((DEPTH / 256)))" |
    dd of="$deep/more.book" bs=1 seek=$((contexts + DEPTH * 3 * 4)) conv=notrunc 2>/dev/null
for words in 'check BOOK' 'print BOOK 0' 'trace BOOK 1' 'listing BOOK 1 0' 'nodes BOOK' 'audit BOOK /dev/null 1 0' 'prove BOOK 1 0' 'append name BOOK x -o NEW' \
    'append node BOOK 0 0 0 -o NEW' 'extend BOOK 1 0 -o NEW' 'point BOOK 0 x -o NEW' 'work BOOK -o NEW'; do
    # The words are meant to fall apart.
    # shellcheck disable=SC2046
    run $(echo "$words" | sed "s|BOOK|$deep/more.book|; s|NEW|$deep/new.book|")
    expect_said "401 deep: $words" 2 "leskofar: $deep/more.book: refused 6: $TOO_DEEP"
done
[ ! -e "$deep/new.book" ] && passed=$((passed + 1)) || fail '401 deep' 'a book is written'

# A book that grows to that depth while it is asked, with a point at the end: what would be deeper is refused, and the work goes on.
. tests/host/working.sh
{
    echo 'append term 0 1'
    seq $((DEPTH - 1)) | awk '{ print "append term 0 1\nextend " $1 - 1 " " $1 }'
    printf '%s\n' "point $((DEPTH - 1)) end" "ask $DEPTH 0" 'append term 0 1' "extend $DEPTH $((DEPTH + 3))" "point $DEPTH beyond" "ask $DEPTH 0"
} >"$lines"
{
    echo 0
    seq $((DEPTH - 1)) | sed p
    printf '%s\n' "$DEPTH" "node $DEPTH, term 0: Proved" "$((DEPTH + 3))" "refused 6, as the book would become: $TOO_DEEP" \
        "refused 6, as the book would become: $TOO_DEEP" "node $DEPTH, term 0: Proved"
} >"$deep/told"
for stand_in in tests/solvers/proves_all.sh z3; do
    works
    expect "a book that grows 400 deep, with $stand_in" 2
    cmp -s "$out" "$deep/told" && [ ! -s "$err" ] && passed=$((passed + 1)) ||
        fail "a book that grows 400 deep, with $stand_in" "$(diff "$out" "$deep/told" | head -5)"
    expect_solvers "a book that grows 400 deep, with $stand_in" "$worked/log" 1
    [ "$(grep -cxF "(declare-fun probe%$((DEPTH - 1)) () Bool)" "$worked/log")" -eq 1 ] && passed=$((passed + 1)) ||
        fail "a book that grows 400 deep, with $stand_in" 'another name at its end'
done
