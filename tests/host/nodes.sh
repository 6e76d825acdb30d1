# Made plans with axioms that have no term, and damaged books: `leskofar nodes` tells what was worked out from the plan's text alone, and
# what `leskofar prove` meets at the same nodes.

mkdir -p "$work/nodes"

# Each list of a plan, or none: status and all that is said.
say_of_lists() { # plan
    while IFS='	' read -r wanted said list; do
        # The nodes are meant to fall apart.
        # shellcheck disable=SC2086
        run nodes "$work/nodes/$1.book" $list
        expect_said "nodes$list of made plan $1" "$wanted" "$(printf '%b' "$said")"
        echo "$wanted" >>"$work/nodes/statuses"
    done <"$work/nodes/$1.lists"
}

# A question at each node of a plan.
ask_at_nodes() { # plan
    term=$(cut -d ' ' -f 2 "$work/nodes/$1.goals")
    # shellcheck disable=SC2046
    run prove "$work/nodes/$1.book" $(seq "$(wc -l <"$work/nodes/$1.truth")" | sed "s/\$/ $term/") --solver tests/solvers/proves_all.sh
    expect_results "the nodes of made plan $1" "$(tr '\n' ' ' <"$work/nodes/$1.truth" | sed 's/ $//')"
}

# More nodes would take more terms than a book has.
MOST_MADE=240
number=1
while [ "$number" -le "$NODE_PLANS" ]; do
    awk -v seed="$number" -v count=$((number * 12 % MOST_MADE + 1)) -v lists="$NODE_LISTS" -v to="$work/nodes/$number" \
        -v book="$work/nodes/$number.book" -f tests/host/nodes.awk || exit 1
    "$TOOLS/plan" book "$work/nodes/$number.plan" -o "$work/nodes/$number.book" --goals >"$work/nodes/$number.goals" || exit 1
    say_of_lists "$number"
    ask_at_nodes "$number"
    number=$((number + 1))
done
# An answer that hardly ever comes is not tried.
for wanted in 0 1 2; do
    [ $((10 * $(grep -cx "$wanted" "$work/nodes/statuses"))) -ge "$(wc -l <"$work/nodes/statuses")" ] && passed=$((passed + 1)) ||
        fail 'nodes of made plans' "status $wanted is too seldom"
done

# Names and sorts are left to the others: `nodes` tells what a session meets.
. tests/host/raw_books.sh
raw_book 'a book with a wrong sort' '(constant x Int)
(constant |a b| Int :name "a b")
(node n root (<= x))'
run check "$raw"
expect 'a book with a wrong name and sort' 2
run nodes "$raw"
expect_said 'its nodes' 0 '1 node can be reached'

# A byte changed anywhere: refused with the number and words of `check`, or not at all.
length=$(wc -c <"$work/nodes/1.book")
damaged=$work/nodes/damaged.book
refusals=0
# So that the changes go all over the book.
STRIDE=7919
change=1
while [ "$change" -le "$NODE_CHANGES" ]; do
    cp "$work/nodes/1.book" "$damaged"
    printf "\\00$((change % 4))" | dd of="$damaged" bs=1 seek=$((change * STRIDE % length)) conv=notrunc 2>/dev/null
    run check "$damaged" --raw-names --raw-sorts
    complaint=$(grep 'refused' "$err")
    run nodes "$damaged"
    name="nodes of a book with byte $((change * STRIDE % length)) changed"
    if [ -n "$complaint" ]; then
        refusals=$((refusals + 1))
        expect_said "$name" 2 "$complaint"
    else
        [ "$status" -lt 2 ] && [ ! -s "$err" ] && passed=$((passed + 1)) || fail "$name" "status $status: $(cat "$err")"
    fi
    change=$((change + 1))
done
echo "$NODE_CHANGES books with a byte changed: $refusals refused"
[ $((5 * refusals)) -ge "$NODE_CHANGES" ] && [ $((5 * refusals)) -le $((4 * NODE_CHANGES)) ] && passed=$((passed + 1)) ||
    fail 'books with a byte changed' 'too few or too many are refused'
