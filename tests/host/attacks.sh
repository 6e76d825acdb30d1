# Plans that would have the solver's words taken for other questions' answers, and what else must not be lost or overwritten.

# z3 writes a type's name into its model without the bars: marks and replies in it, which were once enough to be believed.
cat >"$work/named.plan" <<'PLAN'
(type |T)) leskofar-2 unsat leskofar-3|)
(constant t |T)) leskofar-2 unsat leskofar-3|)
(constant u |T)) leskofar-2 unsat leskofar-3|)
(constant b Int)
(node two_of_them root (not (= t u)))
(node is_2 root (= b 2))
(goal are_one two_of_them (= t u))
(goal is_3 is_2 (= b 3))
PLAN
made named
named_pairs=$pairs
for solver in z3 cvc5; do
    # shellcheck disable=SC2086
    run prove "$work/named.book" $named_pairs --solver "$solver"
    expect_results "a type with marks in its name, with $solver" 'Unproved Unproved'
    expect_not "a type with marks in its name, with $solver" ': Proved'
done
# shellcheck disable=SC2086
run prove "$work/named.book" $named_pairs
expect 'a reply whose model breaks off' 3 ': Unproved (sat), the solver failed at the model' '  no model came:'

# Two runs have no mark in common.
book_of siblings
book=$work/siblings.book
run prove "$book" 3 34 --log "$work/one.smt2"
run prove "$book" 3 34 --log "$work/other.smt2"
grep -h '^(echo ' "$work/one.smt2" "$work/other.smt2" | sort | uniq -d >"$work/common"
[ "$(grep -c '^(echo "leskofar-[0-9a-f]\{32\}-[0-9]*")$' "$work/one.smt2")" -eq 2 ] && [ ! -s "$work/common" ] && passed=$((passed + 1)) ||
    fail 'marks' "$(grep -h '^(echo ' "$work/one.smt2" "$work/other.smt2")"

# Without random bits nothing is asked.
HOST_BEFORE=$HOST
HOST=$UNRANDOM_HOST
run prove "$book" 3 34 3 34 --solver tests/solvers/proves_all.sh
HOST=$HOST_BEFORE
expect 'no random bits' 2 'refused: the system gives no random bits'
expect_not 'no random bits' ': Proved'
[ ! -s "$SOLVER_PIDS" ] && passed=$((passed + 1)) || fail 'no random bits' 'a solver was started'

# A log that is run again gives the same answers, also where a solver failed in between and another one took over.
for solver in z3 cvc5; do
    export FALLIBLE="$solver"
    for fails_at in 1 2 3; do
        export FAILS_AT="$fails_at"
        rm -f "$ONCE"
        run prove "$book" 3 34 4 34 2 34 3 34 --solver tests/solvers/fails_at_check.sh --log "$work/failed.smt2"
        expect "a failure at check $fails_at with $solver" 3
        expect_solvers "a failure at check $fails_at with $solver" "$work/failed.smt2" 2
        again "the log of a failure at check $fails_at with $solver" "$solver" "$work/failed.smt2"
    done
    # shellcheck disable=SC2086
    run prove "$work/named.book" $named_pairs --solver "$solver" --log "$work/named.smt2"
    again "the log of a broken model with $solver" "$solver" "$work/named.smt2"
done

# What came back stays a comment, whatever ends its lines.
run prove "$book" 3 34 --solver tests/solvers/returns_carriage.sh --log "$work/carriage.smt2"
expect 'a carriage return in a model' 1 ': Unproved (sat)'
tr '\r' '\n' <"$work/carriage.smt2" >"$work/carriage.lines"
grep -q '^(assert (not' "$work/carriage.lines" && grep -q '^; (assert false)' "$work/carriage.lines" &&
    ! grep -q '^(assert false)' "$work/carriage.lines" && passed=$((passed + 1)) || fail 'a carriage return in a model' 'it is a command of the log'

# Output that nobody reads ends the run at once, and so does a log that cannot be written.
export CHECKS="$work/checks"
questions='3 34 3 34 3 34 3 34 3 34 3 34 3 34 3 34 3 34 3 34'
: >"$CHECKS"
: >"$SOLVER_PIDS"
export READER_GONE="$work/gone"
# shellcheck disable=SC2086
{ timeout "$HANGS_AFTER" $HOST prove "$book" $questions --solver tests/solvers/waits_for_reader.sh 2>"$err"; echo $? >"$work/status"; } |
    { head -n 1 >"$out"; exec <&-; : >"$READER_GONE"; }
status=$(cat "$work/status")
expect 'output that is read no further' 2 'standard output cannot be written'
[ "$(wc -l <"$CHECKS")" -eq 2 ] && passed=$((passed + 1)) || fail 'output that is read no further' 'more is asked'
: >"$CHECKS"
# shellcheck disable=SC2086
timeout "$HANGS_AFTER" $HOST prove "$book" $questions --solver tests/solvers/counts_checks.sh >/dev/full 2>"$err"
status=$?
: >"$out"
expect 'a full disk' 2 'standard output cannot be written'
[ "$(wc -l <"$CHECKS")" -eq 1 ] && passed=$((passed + 1)) || fail 'a full disk' 'more is asked'
: >"$CHECKS"
# shellcheck disable=SC2086
run prove "$book" $questions --solver tests/solvers/counts_checks.sh --log /dev/full
expect 'a log on a full disk' 2 '/dev/full cannot be written'
[ "$(wc -l <"$CHECKS")" -eq 1 ] && passed=$((passed + 1)) || fail 'a log on a full disk' 'more is asked'

# The log never takes the book's place, under no name, and a file that has several names loses only this one.
cp "$book" "$work/kept.book"
ln -f "$work/kept.book" "$work/hard.book"
ln -sf kept.book "$work/soft.book"
for log in kept.book ./kept.book hard.book soft.book; do
    run prove "$work/kept.book" 3 34 --log "$work/$log"
    expect "the log on the book as $log" 2 'is the book'
    cmp -s "$book" "$work/kept.book" && passed=$((passed + 1)) || fail "the log on the book as $log" 'the book is changed'
done
echo before >"$work/first.log"
ln -f "$work/first.log" "$work/second.log"
ln -sf first.log "$work/link.log"
chmod 640 "$work/first.log"
run prove "$book" 3 34 --log "$work/link.log"
expect 'a log through a link' 0
[ "$(cat "$work/second.log")" = before ] && [ -L "$work/link.log" ] && grep -q check-sat "$work/first.log" &&
    [ "$(stat -c %a "$work/first.log")" = 640 ] && passed=$((passed + 1)) || fail 'a log through a link' 'not only the one file is new'
ln -sf not_there.log "$work/empty_link.log"
run prove "$book" 3 34 --log "$work/empty_link.log"
[ -L "$work/empty_link.log" ] && grep -q check-sat "$work/not_there.log" && passed=$((passed + 1)) ||
    fail 'a log through a link that leads nowhere yet' 'it is not behind the link'
[ -z "$(find "$work" -name '*.new-*')" ] && passed=$((passed + 1)) || fail 'logs' 'a file is left beside'

# What follows from premises that contradict each other is told apart.
cat >"$work/vacuous.plan" <<'PLAN'
(constant x Int)
(node low root (< x 3))
(node both low (< 5 x))
(goal at_low low (< x 9))
(goal at_both both (= x 100))
(goal at_both_too both (= x 101))
(goal at_root root (= x 1))
PLAN
made vacuous
for solver in z3 cvc5; do
    # shellcheck disable=SC2086
    run prove "$work/vacuous.book" $pairs --solver "$solver" --premises --log "$work/vacuous.smt2"
    expect "contradicting premises with $solver" 1
    sed -n 's/^node \([0-9]*\), term [0-9]*: /\1 /p' "$out" >"$work/results"
    cat >"$work/wanted" <<'RESULTS'
1 Proved
2 Proved; premises contradict each other: everything follows
2 Proved; premises contradict each other: everything follows
0 Unproved (sat)
RESULTS
    cmp -s "$work/results" "$work/wanted" && passed=$((passed + 1)) || fail "contradicting premises with $solver" "$(cat "$work/results")"
    [ "$(grep -c '^(check-sat)$' "$work/vacuous.smt2")" -eq 7 ] && passed=$((passed + 1)) ||
        fail "contradicting premises with $solver" 'not one question for each node and goal'
done
# shellcheck disable=SC2086
run prove "$work/vacuous.book" $pairs
expect_not 'premises that nobody asks about' 'contradict'
# shellcheck disable=SC2086
run prove "$work/vacuous.book" $pairs --premises --solver tests/solvers/unknown.sh
expect 'premises that nobody knows about' 1 'Unproved (unknown); whether premises contradict each other is not known'
# shellcheck disable=SC2086
run prove "$work/vacuous.book" $pairs --premises --quiet
expect 'contradicting premises are told although quiet' 1 'node 2, term'  'premises contradict each other'
