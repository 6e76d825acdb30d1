# The sample plans, with both solvers: what their comments say, and their listings, which tests/host/listings has.

# The last run's listings, each with the question that it stands before, and all that is no listing.
listed() { sed -n '/^----- Proof obligation:$/,/^node /p' "$out" | sed 's/^\(node [0-9]*, term [0-9]*\): .*/\1/'; }
unlisted() { sed '/^----- Proof obligation:$/,/^node /{/^node /!d;}' "$out"; }

expect_listings() { # name file
    listed >"$work/listed"
    cmp -s "$work/listed" "$2" && passed=$((passed + 1)) || fail "$1" "other listings: $(diff "$work/listed" "$2" | head -5)"
}

# A log without what is each run's own.
unmarked() { sed 's/"leskofar-[0-9a-f]*-/"mark-/' "$1"; }

# A log without what came back: what the solver was sent.
sent() { unmarked "$1" | grep -v '^;'; }

# What the solver was sent is strict SMT-LIB 2.6: levels are counted, a number has no minus of its own, and no name is defined as one.
expect_strict() { # name log
    sent "$2" >"$work/sent"
    loose=$(grep -E '\((push|pop)\)|(^|[( ])-[0-9]|\(define-' "$work/sent")
    if [ -n "$loose" ]; then
        fail "$1" "not strict: $loose"
    elif grep -qx '(push 1)' "$work/sent" && grep -qx '(pop 1)' "$work/sent"; then
        passed=$((passed + 1))
    else
        fail "$1" 'no level is counted'
    fi
}

# The sample once more, with listings: nothing else changes.
sample_listed() { # name status
    cp "$out" "$work/plain"
    # shellcheck disable=SC2086
    run prove "$work/$1.book" $pairs --solver "$solver" --log "$work/$1.listed.log" --show-proof-obligations
    expect "$1 with $solver and listings" "$2"
    expect_listings "$1 with $solver and listings" "tests/host/listings/$1.txt"
    unlisted | cmp -s - "$work/plain" && passed=$((passed + 1)) || fail "$1 with $solver and listings" 'other answers'
    unmarked "$work/$1.log" >"$work/plain"
    unmarked "$work/$1.listed.log" | cmp -s - "$work/plain" && passed=$((passed + 1)) || fail "$1 with $solver and listings" 'another log'
}

for solver in z3 cvc5; do
    sample() { # name status results
        book_of "$1"
        # The pairs are meant to fall apart.
        # shellcheck disable=SC2086
        run prove "$work/$1.book" $pairs --solver "$solver" --log "$work/$1.log"
        expect "$1 with $solver" "$2"
        expect_results "$1 with $solver" "$3"
        expect_strict "$1 with $solver" "$work/$1.log"
        sample_listed "$1" "$2"
    }
    sample limit_proved 0 'Proved'
    expect_solvers "one question with $solver" "$work/limit_proved.log" 1
    sample limit_not_proved 1 'Unproved Proved Unproved'
    sample siblings 1 'Proved Unproved Proved'
    expect_solvers "three questions with $solver" "$work/siblings.log" 1
    sample distance_axiom 1 'Proved Unproved'
    sample open_step 1 'Proved Unproved Proved'
    sample patterns 1 'Proved Proved Unproved'
    sample shades 1 'Proved Unproved Proved Unproved'
    sample yarns 1 'Proved Unproved'
    sample zero_point 1 'Proved Proved Unproved Proved'

    book_of siblings
    run prove "$work/siblings.book" 4 34 --solver "$solver"
    expect "reason and trace with $solver" 1 '    sat' '(define-fun box_3 () Int' '      step 3, fancy pick: box 1'
    run prove "$work/siblings.book" 3 34 4 34 --solver "$solver" --quiet
    expect "quiet with $solver" 1
    [ ! -s "$out" ] && [ ! -s "$err" ] && passed=$((passed + 1)) || fail "quiet with $solver" 'it says something'
    run prove "$work/siblings.book" 3 34 4 34 --solver "$solver" --quiet --show-proof-obligations
    expect "quiet with $solver and listings" 1
    [ ! -s "$out" ] && [ ! -s "$err" ] && passed=$((passed + 1)) || fail "quiet with $solver and listings" 'it says something'
    # shellcheck disable=SC2086
    run prove "$work/siblings.book" $pairs --solver "$solver" --premises --show-proof-obligations
    expect "premises with $solver and listings" 1
    expect_listings "premises with $solver and listings" tests/host/listings/siblings.txt

    # Negative numbers, the least one too. Both solvers are sent the same: the library's text, and nothing around it but options and marks.
    cat >"$work/negative.plan" <<'PLAN'
(constant x Int)
(node below root (and (< x -5) (< -9223372036854775808 x) (not (= x -5))))
(goal below_zero below (< x 0))
(goal above_the_least below (< -9223372036854775808 x))
(goal below_minus_seven below (< x -7))
PLAN
    "$TOOLS/plan" book "$work/negative.plan" -o "$work/negative.book" --goals >"$work/negative.goals" || exit 1
    # shellcheck disable=SC2046
    run prove "$work/negative.book" $(cut -d ' ' -f 1,2 "$work/negative.goals") --solver "$solver" --show-proof-obligations \
        --log "$work/negative.log"
    expect "negative numbers with $solver" 1
    expect_results "negative numbers with $solver" 'Proved Proved Unproved'
    expect_listings "negative numbers with $solver" tests/host/listings/negative.txt
    expect_strict "negative numbers with $solver" "$work/negative.log"
    cmp -s "$work/sent" tests/host/sent/negative.smt2 && passed=$((passed + 1)) ||
        fail "negative numbers with $solver" "another text: $(diff "$work/sent" tests/host/sent/negative.smt2 | head -5)"

    # A constant may be called -5, which is not the number: cvc5 takes it, and z3 between bars.
    for called in '-5' '|-5|'; do
        printf '(constant c Int :name "%s")\n(node n root (= c 7))\n(goal differs n (not (= c -5)))\n(goal is_the_number n (= c -5))\n' \
            "$called" >"$work/called.plan"
        "$TOOLS/plan" book "$work/called.plan" -o "$work/called.book" --goals --raw-names >"$work/called.goals" 2>"$err" || exit 1
        # shellcheck disable=SC2046
        run prove "$work/called.book" $(cut -d ' ' -f 1,2 "$work/called.goals") --solver "$solver" --raw-names
        case "$solver $called" in
            'z3 -5')
                expect "a constant called $called with $solver" 3 '(error "' 'symbol expected'
                expect_results "a constant called $called with $solver" 'Unproved Unproved' ;;
            *)
                expect "a constant called $called with $solver" 1
                expect_results "a constant called $called with $solver" 'Proved Unproved' ;;
        esac
    done

    # Quantifiers with patterns and without, of built-in types and of a plan's own, and names with bars.
    cat >"$work/quantifiers.plan" <<'PLAN'
(type Shade)
(type |weft kind|)
(constant a Int)
(constant p Bool)
(constant s Shade)
(constant |kind 1| |weft kind|)
(constant |kind 2| |weft kind|)
(function box_of (Shade Int) Int)
(node rule root (forall ((s Shade) (a Int)) (! (<= 0 (box_of s a)) :pattern ((box_of s a)) :pattern ((box_of s 1) (box_of s a)))))
(node some rule (exists ((p Bool) (|kind 1| |weft kind|)) (and p (= |kind 1| |kind 2|))))
(goal follows some (let ((p (forall ((a Int)) (<= -1 (box_of s a))))) p))
PLAN
    "$TOOLS/plan" book "$work/quantifiers.plan" -o "$work/quantifiers.book" --goals >"$work/quantifiers.goals" || exit 1
    # shellcheck disable=SC2046
    run prove "$work/quantifiers.book" $(cut -d ' ' -f 1,2 "$work/quantifiers.goals") --solver "$solver" --show-proof-obligations
    expect "quantifiers with $solver" 0
    expect_listings "quantifiers with $solver" tests/host/listings/quantifiers.txt

    # What the solver cannot read fails the check, and only that: the next question has a new solver.
    cat >"$work/unread.plan" <<'PLAN'
(constant x Int)
(node good root (= x 1))
(goal strange good (builtin "no-such-operator" x))
(goal sound good (< x 2))
PLAN
    "$TOOLS/plan" book "$work/unread.plan" -o "$work/unread.book" --goals >"$work/unread.goals" || exit 1
    # shellcheck disable=SC2046
    run prove "$work/unread.book" $(cut -d ' ' -f 1,2 "$work/unread.goals") --solver "$solver" --log "$work/unread.log"
    expect "a term that $solver cannot read" 3 '(error "'
    expect_results "a term that $solver cannot read" 'Unproved Proved'
    expect_solvers "a term that $solver cannot read" "$work/unread.log" 2
done

# The log is the conversation: run again as a script, it gives the same replies.
book_of siblings
# shellcheck disable=SC2086
run prove "$work/siblings.book" $pairs --log "$work/again.smt2"
grep -v '^;' "$work/again.smt2" | z3 -smt2 -in | grep -x 'sat\|unsat' >"$out"
printf 'unsat\nsat\nunsat\n' >"$work/wanted"
cmp -s "$out" "$work/wanted" && passed=$((passed + 1)) || fail 'the log run again' "$(cat "$out")"
grep -qx '; unsat' "$work/again.smt2" && passed=$((passed + 1)) || fail 'the log' 'no reply in it'

# A command for the shell, with options of its own.
run prove "$work/siblings.book" 3 34 --solver 'z3 -smt2 -in smt.random_seed=7'
expect 'a command for the shell' 0 'Proved'

# An axiom without a term: refusal 9, in words, and the others go on.
printf '(constant x Int)\n(function f (Int) Int :explained-by (lost))\n(axiom lost :explains (f))\n(node n root (= x 1))\n(goal a n (= (f x) 1))\n(goal b n (< x 2))\n' >"$work/lost.plan"
"$TOOLS/plan" book "$work/lost.plan" -o "$work/lost.book" --goals >"$work/lost.goals" || exit 1
# shellcheck disable=SC2046
run prove "$work/lost.book" $(cut -d ' ' -f 1,2 "$work/lost.goals") --show-proof-obligations
expect 'an axiom without a term' 2 'refused 9: a function that is needed there is explained by an axiom without a term'
expect_results 'an axiom without a term' 'refused Proved'
expect_listings 'an axiom without a term' tests/host/listings/lost.txt

# What is said of nodes.
for sample in limit_proved limit_not_proved siblings distance_axiom open_step patterns shades yarns zero_point; do
    book_of "$sample"
    run nodes "$work/$sample.book"
    expect_said "nodes of $sample" 0 "$(grep -c '^(node ' "samples/$sample.plan") nodes can be reached"
done
# A goal that is refused 9 says nothing of its node.
run nodes "$work/lost.book"
expect_said 'a node with such a goal' 0 '1 node can be reached'

# A node whose premise needs an axiom without a term, its child, which has no trace of its own, and one without any.
cat >"$work/unreached.plan" <<'PLAN'
(constant x Int)
(function f (Int) Int :explained-by (lost))
(axiom lost :explains (f))
(node start root (= x 1) :trace "start")
(node plain start (< x 2) :trace "plain")
(node hidden start (= (f x) 1) :trace "hidden rule")
(node below hidden (< x 3))
(node bare root (= (f x) 2))
PLAN
"$TOOLS/plan" book "$work/unreached.plan" -o "$work/unreached.book" || exit 1
unreached() { # node position trace nodes...
    text="node $1, at position $2 of the list (the first is 0), would be refused 9: a function that is needed there is explained by an axiom without a term$3"
    shift 3
    run nodes "$work/unreached.book" "$@"
    expect_said "an axiom without a term at nodes $*" 1 "$text"
}
hidden='
  trace:
      start
      hidden rule'
unreached 3 2 "$hidden"
unreached 4 1 "$hidden" 2 4 3
unreached 3 3 "$hidden" 0 1 2 3
unreached 3 0 "$hidden" 3 3 4
unreached 5 1 '' 1 5
run nodes "$work/unreached.book" 2 1
expect_said 'the other nodes' 0 '2 nodes can be reached'
run nodes "$work/unreached.book" 3 6
expect 'a node outside behind one that fails' 2 'refused 7: node 6, at position 1 '
timeout "$HANGS_AFTER" $HOST nodes "$work/unreached.book" >/dev/full 2>"$err"
status=$?
: >"$out"
expect 'a full standard output for a node that fails' 2 'standard output cannot be written'

# A listing can be read while the solver is busy with its question: what was printed at the last check is all but the last answer.
cat >"$work/looks.sh" <<SOLVER
#!/bin/sh
. tests/solvers/common.sh
at_check() { cp "$out" "$work/seen" && echo unsat; }
serve
SOLVER
chmod +x "$work/looks.sh"
run prove "$work/siblings.book" 3 34 4 34 --solver "$work/looks.sh" --show-proof-obligations
expect 'a listing before its answer' 0 'node 4, term 34: Proved'
sed '$d' "$out" | cmp -s - "$work/seen" && passed=$((passed + 1)) || fail 'a listing before its answer' "only $(cat "$work/seen")"
