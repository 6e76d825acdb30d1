# Large texts and answers, limits, signals, and solvers that die at any byte.

book_of siblings
book=$work/siblings.book

# A model of many megabytes comes through whole.
run prove "$book" 3 34 --solver tests/solvers/large_model.sh --log "$work/large.log"
expect 'a large model' 1
[ "$(wc -c <"$out")" -gt "$LARGE" ] && passed=$((passed + 1)) || fail 'a large model' 'it is cut short'
[ "$(wc -c <"$work/large.log")" -gt "$LARGE" ] && passed=$((passed + 1)) || fail 'a large log' 'it is cut short'

# A question of megabytes: a name of 8,000 letters, twice in each equality.
EQUALITIES=200
long_name=$(head -c 8000 /dev/zero | tr '\0' 'x')
{
    echo "(constant $long_name Int)"
    printf '(node n root (and'
    i=0
    while [ "$i" -lt "$EQUALITIES" ]; do
        printf ' (= %s %s)' "$long_name" "$long_name"
        i=$((i + 1))
    done
    echo '))'
    echo "(goal g n (= $long_name $long_name))"
} >"$work/large.plan"
"$TOOLS/plan" book "$work/large.plan" -o "$work/large.book" --goals >"$work/large.goals" || exit 1
pairs=$(cut -d ' ' -f 1,2 "$work/large.goals")
for solver in z3 cvc5; do
    # shellcheck disable=SC2086
    run prove "$work/large.book" $pairs --solver "$solver"
    expect "a large question with $solver" 0 ': Proved'
done
for solver in never_reads closed_input; do
    # shellcheck disable=SC2086
    run prove "$work/large.book" $pairs --solver "tests/solvers/$solver.sh" --timeout "$PATIENCE"
    expect "a large question to $solver" 3 'the solver failed'
done

# Its listing, for which the buffer grows.
# shellcheck disable=SC2086
run listing "$work/large.book" $pairs
expect 'a large listing' 0
{
    echo '----- Proof obligation:'
    printf '  and('
    i=1
    while [ "$i" -lt "$EQUALITIES" ]; do
        printf '=(%s, %s), ' "$long_name" "$long_name"
        i=$((i + 1))
    done
    printf '=(%s, %s))\n  |-\n  =(%s, %s)\n' "$long_name" "$long_name" "$long_name" "$long_name"
} | cmp -s - "$out" && passed=$((passed + 1)) || fail 'a large listing' 'another text'

# One that is longer than 256 MiB: that name for each variable of each quantifier.
QUANTIFIERS=17
VARIABLES=2000
repeated() { # text count
    awk -v text="$1" -v count="$2" 'BEGIN { while (count-- > 0) printf "%s", text }'
}
{
    echo "(constant x Int :name \"$long_name\")"
    echo "(goal g root $(repeated "(forall ($(repeated '(x Int)' "$VARIABLES")) " "$QUANTIFIERS")(= x x)$(repeated ')' "$QUANTIFIERS"))"
} >"$work/huge.plan"
"$TOOLS/plan" book "$work/huge.plan" -o "$work/huge.book" --goals >"$work/huge.goals" || exit 1
pairs=$(cut -d ' ' -f 1,2 "$work/huge.goals")
# shellcheck disable=SC2086
run listing "$work/huge.book" $pairs
expect 'a listing that is too long' 2 'refused 10: the text, the reason or the new book is longer than its buffer'
# shellcheck disable=SC2086
run prove "$work/huge.book" $pairs --show-proof-obligations
expect 'a question whose listing is too long' 2 'the listing is refused 10: the text, the reason or the new book is longer than its buffer' ': refused 10'
expect_not 'a question whose listing is too long' '-----'

# The solver's memory.
run prove "$book" 3 34 --memory 100 --solver tests/solvers/greedy.sh
expect 'a greedy solver' 3 'gave no reply to the check'
run prove "$book" 3 34 --memory 1000 --solver tests/solvers/greedy.sh
expect 'a greedy solver with enough' 0 ': Proved'
for solver in z3 cvc5; do
    run prove "$book" 3 34 --memory 500 --solver "$solver"
    expect "$solver with a memory limit" 0
done

# A signal ends host and solver.
for signal in 1 2 15; do
    : >"$SOLVER_PIDS"
    # shellcheck disable=SC2086
    env --default-signal=HUP,INT,TERM $HOST prove "$book" 3 34 --timeout 100 --solver tests/solvers/silent.sh >"$out" 2>"$err" &
    host_pid=$!
    waited=0
    while [ "$(wc -l <"$SOLVER_PIDS")" -lt 2 ] && [ "$waited" -lt 100 ]; do
        sleep 0.1
        waited=$((waited + 1))
    done
    kill "-$signal" "$host_pid"
    wait "$host_pid" 2>/dev/null
    status=$?
    expect "signal $signal" $((128 + signal))
done

# A solver that dies at any byte it writes or reads: no question that does not hold is proved, and none is lost.
pairs='3 34 4 34'
# More bytes than both answers have, and more than the host sends.
MOST_WRITTEN=480
MOST_READ=1800
byte=0
is_whole=no
while [ "$byte" -le "$MOST_WRITTEN" ]; do
    export CUT_OFF="$byte"
    # shellcheck disable=SC2086
    run prove "$book" $pairs --solver 'exec tests/solvers/cut_off.sh'
    results=$(sed -n 's/^node [0-9]*, term [0-9]*: \([A-Za-z]*\).*/\1/p' "$out" | tr '\n' ' ')
    case $status.$results in
        '3.Unproved Unproved ' | '3.Proved Unproved ') passed=$((passed + 1)) ;;
        '1.Proved Unproved ') is_whole=yes ;;
        *) fail "dies after $byte bytes of output" "$status: $results" ;;
    esac
    nobody_is_left || fail "dies after $byte bytes of output" 'a process is left'
    byte=$((byte + STEP))
done
[ "$is_whole" = yes ] && passed=$((passed + 1)) || fail 'dies at any byte of output' 'never whole'
byte=0
while [ "$byte" -le "$MOST_READ" ]; do
    # shellcheck disable=SC2086
    run prove "$book" $pairs --solver "dd bs=1 count=$byte 2>/dev/null | z3 -smt2 -in"
    expect_not "dies after $byte bytes of input" 'node 4, term 34: Proved'
    [ "$(grep -c '^node' "$out")" -eq 2 ] || fail "dies after $byte bytes of input" 'a question is lost'
    byte=$((byte + 30 * STEP))
done
