# `leskofar work`: a book that grows while it is asked, by one solver in one session: what is answered, and what is sent.

. tests/host/working.sh

# A log without what came back and without what is each run's own: what the solver was sent.
sent_in() { sed 's/"leskofar-[0-9a-f]*-/"mark-/' "$1" | grep -v '^;'; }

expect_same_sent() { # name log log
    sent_in "$3" >"$worked/sent"
    sent_in "$2" | cmp -s - "$worked/sent" && passed=$((passed + 1)) ||
        fail "$1" "other text: $(sent_in "$2" | diff - "$worked/sent" | head -5)"
}

# The sample of lines says what the plan of that name says, but for a trace: both solvers are sent the same, and say the same.
book_of siblings
for solver in z3 cvc5; do
    run_on samples/siblings.lines work "$base" -o "$worked/siblings.book" --solver "$solver" --log "$worked/siblings.log"
    expect "the sample of lines with $solver" 1 '    (define-fun box_3 () Int' '      step 3, fancy pick: box 1'
    expect_results "the sample of lines with $solver" 'Proved Unproved Proved'
    expect_solvers "the sample of lines with $solver" "$worked/siblings.log" 1
    run prove "$work/siblings.book" 3 34 4 34 3 34 --solver "$solver" --log "$worked/plan.log"
    expect_same_sent "the sample of lines with $solver" "$worked/siblings.log" "$worked/plan.log"
    run prove "$worked/siblings.book" 3 31 4 31 3 31 --solver "$solver" --log "$worked/whole.log"
    expect_same_sent "the book of the sample with $solver" "$worked/siblings.log" "$worked/whole.log"
done
run check "$worked/siblings.book"
expect 'the book of the sample' 0 'a good book'
run_on samples/siblings.lines work "$base" --show-proof-obligations
expect_results 'the sample with listings' 'Proved Unproved Proved'
[ "$(grep -cx -- '----- Proof obligation:' "$out")" -eq 3 ] && passed=$((passed + 1)) || fail 'the sample with listings' 'not three listings'

# Made plans. The lines' numbers are worked out apart, and the plan, written whole and asked question by question, is sent the same.
printf '%s\n' '(constant z Int)' '(function f (Int) Int :explained-by (rule))' \
    '(axiom rule (forall ((z Int)) (! (= (f z) (+ z z)) :pattern ((f z)))) :explains (f))' >"$worked/rule.plan"
"$TOOLS/plan" book "$worked/rule.plan" -o "$worked/rule.book" || exit 1
MOST_MADE=12
number=1
while [ "$number" -le "$WORK_PLANS" ]; do
    made=$worked/$number
    if [ $((number % 2)) -eq 0 ]; then begins=rule; else begins=base; fi
    # The counts of names, constants and terms in its table of contents.
    # shellcheck disable=SC2046
    set -- $(od -An -v -tu4 -w8 -N80 "$worked/$begins.book" | awk '{ print $2 }')
    awk -v seed="$number" -v count=$((number % MOST_MADE + 1)) -v to="$made" -v names="$2" -v constants="$4" -v terms="$8" \
        -v has_base=$((1 - number % 2)) -f tests/host/work.awk || exit 1
    [ "$begins" = base ] || cat "$worked/rule.plan" >>"$made.plan"
    "$TOOLS/plan" book "$made.plan" -o "$made.whole" --goals >"$made.goals" || exit 1
    # A solver that takes long is not waited for: what it is sent is compared.
    solver=z3
    [ $((number % 4)) -ne 3 ] || solver=tests/solvers/denies_all.sh
    run_on "$made.lines" work "$worked/$begins.book" -o "$made.book" --log "$made.log" --solver "$solver" --timeout 5
    [ "$status" -lt 2 ] && passed=$((passed + 1)) || fail "made lines $number" "status $status: $(cat "$err")"
    answers | cmp -s - "$made.told" && passed=$((passed + 1)) || fail "made lines $number" "other answers: $(answers | diff - "$made.told" | head -5)"
    expect_solvers "made lines $number" "$made.log" 1
    results=$(sed -n 's/^node [0-9]*, term [0-9]*: \([A-Za-z]*\).*/\1/p' "$out" | tr '\n' ' ')
    sed -n 's/^node [0-9]*, term [0-9]*: \([A-Za-z]*\).*/\1/p' "$out" >>"$worked/results"
    # shellcheck disable=SC2046
    run prove "$made.whole" $(cut -d ' ' -f 1,2 "$made.goals") --log "$made.plan.log" --solver "$solver" --timeout 5
    expect_results "made lines $number, as a plan" "${results% }"
    expect_same_sent "made lines $number" "$made.log" "$made.plan.log"
    run check "$made.book"
    expect "the book of made lines $number" 0 'a good book'
    number=$((number + 1))
done
# An answer that hardly ever comes is not tried.
for result in Proved Unproved; do
    [ $((10 * $(grep -cx "$result" "$worked/results"))) -ge "$(wc -l <"$worked/results")" ] && passed=$((passed + 1)) ||
        fail 'made lines' "$result is too seldom"
done

# A solver that fails: its question is told, and the next has a new one, which is sent the grown book's premises.
printf 'append term 0 1\nappend term 0 1\nextend 0 0 one\nask 1 1\npoint 1 two\nask 2 1\npoint 2 three\nask 3 1\n' >"$lines"
rm -f "$ONCE"
stand_in=tests/solvers/fails_once.sh
works
expect 'a solver that fails once' 3 'Unproved, the solver failed'
expect_results 'a solver that fails once' 'Unproved Proved Proved'
expect_solvers 'a solver that fails once' "$worked/log" 2
stand_in=tests/solvers/answers_once.sh
works
expect_results 'solvers that answer once' 'Proved Proved Proved'
expect_solvers 'solvers that answer once' "$worked/log" 3
grep -qx '(assert (= probe%2 true))' "$worked/log" && passed=$((passed + 1)) || fail 'solvers that answer once' 'the last premise is not sent'
stand_in='exec /no/such/solver'
works
expect 'no solver' 3 'Unproved, the solver failed'
expect_results 'no solver' 'Unproved Unproved Unproved'
[ -s "$new" ] && passed=$((passed + 1)) || fail 'no solver' 'no book is written'
stand_in=tests/solvers/unknown.sh
works
expect 'a solver that does not know' 1 'Unproved (unknown)'

# Each line is answered before the next is sent, and a host that is ended while it waits for a line leaves nobody.
cat >"$worked/pids.sh" <<'SOLVER'
#!/bin/sh
. tests/solvers/common.sh
start_helper
serve
SOLVER
chmod +x "$worked/pids.sh"
mkfifo "$worked/in" "$worked/answer"
begin_talk() {
    : >"$SOLVER_PIDS"
    export HOST base worked
    # shellcheck disable=SC2016
    timeout -s KILL "$HANGS_AFTER" sh -c 'echo $$ >"$worked/pid"; exec $HOST work "$base" --solver "$worked/pids.sh" -o "$worked/talk.book"' \
        <"$worked/in" >"$worked/answer" 2>"$err" &
    exec 4>"$worked/in" 5<"$worked/answer"
}
answered() { # name line answer
    echo "$2" >&4
    read -r answer <&5
    [ "$answer" = "$3" ] && passed=$((passed + 1)) || fail "$1" "answered '$answer', not '$3'"
}
for signal in KILL TERM HUP; do
    begin_talk
    answered 'a term, at once' 'append term 0 1' 0
    answered 'a question, at once' 'ask 0 0' 'node 0, term 0: Proved'
    answered 'a refusal, at once' 'extend 7 7' 'refused 7: the node or term is not in the book'
    answered 'a point, at once' 'point 0 now' 1
    answered 'a question there, at once' 'ask 1 0' 'node 1, term 0: Proved'
    somebody_lives && passed=$((passed + 1)) || fail 'a host at work' 'its solver is gone'
    kill -"$signal" "$(cat "$worked/pid")"
    nobody_is_left && passed=$((passed + 1)) || fail "a host at work that gets $signal" 'a process is left'
    exec 4>&- 5<&-
    wait
    [ ! -e "$worked/talk.book" ] && passed=$((passed + 1)) || fail "a host at work that gets $signal" 'a book is written'
done
begin_talk
answered 'a term in another talk' 'append term 0 1' 0
answered 'a question in another talk' 'ask 0 0' 'node 0, term 0: Proved'
exec 4>&-
read -r answer <&5 && fail 'the end of a talk' "said $answer"
wait
nobody_is_left && [ -s "$worked/talk.book" ] && passed=$((passed + 1)) || fail 'the end of a talk' 'a process is left, or no book'
exec 5<&-
