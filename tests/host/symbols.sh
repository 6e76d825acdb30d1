# Names that are no simple symbols, as solvers see them: what they answer, what z3 would misread, and what no book may have.

# A shop's own names, with blanks and digits, in every place that a solver sees.
cat >"$work/yarns.plan" <<'PLAN'
(type |yarn shade|)
(constant |red 40| |yarn shade|)
(constant |40| |yarn shade|)
(constant |box 1| Int)
(constant |box 2| Int)
(constant |any; shade| |yarn shade|)
(function |box of| (|yarn shade|) Int :explained-by (|all boxes|))
(axiom |all boxes| (forall ((|any; shade| |yarn shade|)) (! (<= 1 (|box of| |any; shade|)) :pattern ((|box of| |any; shade|))))
  :explains (|box of|))
(node first root (= (|box of| |red 40|) |box 1|) :trace "pick 1: red 40")
(node second first (and (= |red 40| (literal "dark red" |yarn shade|)) (= |box 2| (|box of| (literal "dark red" |yarn shade|)))))
(node third second (not (= |40| |red 40|)))
(goal one_box second (= |box 1| |box 2|))
(goal from_1 second (let ((|box 2| (|box of| |40|))) (< 0 |box 2|)))
(goal box_7 third (= |box 2| 7))
(goal another third (not (= |40| (literal "dark red" |yarn shade|))))
PLAN
made yarns
for solver in z3 cvc5; do
    # shellcheck disable=SC2086
    run prove "$work/yarns.book" $pairs --solver "$solver" --log "$work/yarns.log"
    expect "names with blanks, with $solver" 1
    expect_results "names with blanks, with $solver" 'Proved Proved Unproved Proved'
    again "names with blanks, with $solver, run again" "$solver" "$work/yarns.log"
    for line in '(declare-sort |yarn shade| 0)' '(declare-fun |dark red:yarn shade| () |yarn shade|)' '(declare-fun |40| () |yarn shade|)' \
        '(declare-fun |box of| (|yarn shade|) Int)' '(assert (= (|box of| |red 40|) |box 1|))' \
        '(assert (not (let ((|box 2| (|box of| |40|))) (< 0 |box 2|))))'; do
        grep -qxF -- "$line" "$work/yarns.log" && passed=$((passed + 1)) || fail "names with blanks, with $solver" "no line $line"
    done
done

# For people names are as the book has them, without bars.
term=$(cut -d ' ' -f 2 "$work/yarns.goals" | head -1)
run listing "$work/yarns.book" 1 "$term"
expect_said 'a listing has no bars' 0 '----- Proof obligation:
  =(box of(red 40), box 1)
  |-
  =(box 1, box 2)'
run print "$work/yarns.book" "$term"
expect_said 'what is printed has them' 0 '(= |box 1| |box 2|)'
run trace "$work/yarns.book" 3
expect_said 'a trace is as it is' 0 '  pick 1: red 40'

# Such names, appended one by one.
run new -o "$work/appended.book"
cat >"$work/appended.lines" <<'LINES'
append name "red 40"
append name =
append constant 0 1
append term 3 0
append term 1 7
append term 4 1 --first 0,1
append node 0 2 0
append term 3 0
append term 1 7
append term 4 1 --first 3,4
ask 1 5
LINES
for solver in z3 cvc5; do
    run_on "$work/appended.lines" work "$work/appended.book" --solver "$solver" --log "$work/appended.log"
    expect "a name with a blank, appended, with $solver" 0 'node 1, term 5: Proved'
    grep -qxF '(declare-fun |red 40| () Int)' "$work/appended.log" && passed=$((passed + 1)) || fail "a name with a blank with $solver" 'not sent'
done

# A name given to each sort of record, and a goal that the solver has to know it for.
of_type() { plan="(type T :name \"$1\") (constant a T) (constant b T) (node n root (= a b)) (goal g n (= b a))" who='type 2'; }
of_constant() { plan="(constant c Int :name \"$1\") (node n root (= c 7)) (goal g n (< c 8))" who='constant 0'; }
of_function() { plan="(function f (Int) Int :name \"$1\") (node n root (= (f 1) 7)) (goal g n (< (f 1) 8))" who='function 0'; }
asks() { # solver [option...]
    # shellcheck disable=SC2086
    run prove "$work/word.book" $pairs --solver "$@"
}
word_book() { # role letters
    "of_$1" "$2"
    printf '%s\n' "$plan" >"$work/word.plan"
    made word --raw-names
}

# The general reserved words: z3 is not asked, whatever the options are, and cvc5 takes them.
misread='which is a reserved word of SMT-LIB: z3 takes such words for its own, even between bars'
refused_for_z3() { # name [option...]
    called=$1
    shift
    rm -f "$work/word.log"
    asks "$@" --log "$work/word.log"
    expect_said "$called" 2 "leskofar: $work/word.book: $who is called \"$letters\", $misread"
    [ ! -e "$work/word.log" ] && passed=$((passed + 1)) || fail "$called" 'something was asked'
}
for word in ! _ as BINARY DECIMAL exists HEXADECIMAL forall let match NUMERAL par STRING; do
    for letters in "$word" "|$word|"; do
        for role in type constant function; do
            word_book "$role" "$letters"
            refused_for_z3 "$role $letters before z3" z3
            refused_for_z3 "$role $letters before z3 with --raw-names" z3 --raw-names
            asks cvc5
            expect "$role $letters before cvc5" 0 ': Proved'
            run check "$work/word.book"
            expect "$role $letters in a book" 0 'a good book'
        done
    done
done

# By every way to z3 that the host can know, and by no other.
letters=!
word_book function "$letters"
for solver in "$(command -v z3)" 'z3 -smt2 -in' 'exec z3 -smt2 -in' 'env LANG=C z3 -smt2 -in' 'cd / && z3 -smt2 -in' /no/such/z3; do
    refused_for_z3 "$letters before $solver" "$solver" --raw-names --raw-sorts
done
for solver in "$(command -v cvc5)" 'cvc5 --lang=smt2 --incremental --produce-models --force-logic=ALL' tests/solvers/proves_all.sh; do
    asks "$solver"
    expect "$letters before $solver" 0 ': Proved'
done
# What z3 would have made of it: (f 1) is 7 there, so that it is 8 does not follow.
printf '%s\n' '(function f (Int) Int :name "!") (node n root (= (f 1) 7)) (goal g n (= (f 1) 8))' >"$work/word.plan"
made word
asks z3
expect 'a goal that does not follow, before z3' 2 "$misread"
expect_not 'a goal that does not follow, before z3' ': Proved'
asks cvc5
expect 'a goal that does not follow, before cvc5' 1 ': Unproved (sat)'

# One that nobody uses.
printf '%s\n' '(type T :name "let") (constant p Bool) (node n root p) (goal g n p)' >"$work/word.plan"
made word
letters=let who='type 2'
refused_for_z3 'a type that nobody uses' z3

# Other words: commands, other letters, one more and one less.
for letters in assert '|push|' set-option LET lets le Forall binary STRINGS '|as |' ' as' __ !!; do
    for role in type constant function; do
        word_book "$role" "$letters"
        for solver in z3 cvc5; do
            asks "$solver"
            expect "$role $letters before $solver" 0 ': Proved'
        done
    done
done

# Names that the standard keeps for solvers: z3 takes them, and to cvc5 they are errors, which fail the check.
for letters in @x .x '|@x|' '|.x|'; do
    for role in type constant function; do
        word_book "$role" "$letters"
        asks z3
        expect "$role $letters before z3" 0 ': Proved'
        asks cvc5
        expect "$role $letters before cvc5" 3 ': Unproved, the solver failed' '(error "'
        expect_not "$role $letters before cvc5" ': Proved'
    done
done

# A book that grows: asked before a reserved word is in it, and refused with it.
cat >"$work/word.lines" <<'LINES'
append name p
append constant 0 0
append term 3 0
append node 0 0 0
append term 3 0
ask 1 1
append name |exists|
append constant 1 1
ask 1 1
LINES
grown_word="node 1, term 1: refused: constant 1 is called \"|exists|\", $misread"
for options in '--solver z3' '--solver z3 --raw-names'; do
    # shellcheck disable=SC2086
    run_on "$work/word.lines" work "$work/appended.book" $options
    expect "a word in a book that grows, $options" 2 "$grown_word"
    expect_results "a word in a book that grows, $options" 'Proved refused'
done
run_on "$work/word.lines" work "$work/appended.book" --solver cvc5
expect_results 'a word in a book that grows, with cvc5' 'Proved Proved'
# And in one that has such a word from the begin.
letters='|let|'
word_book constant "$letters"
echo "ask $pairs" >"$work/word.lines"
run_on "$work/word.lines" work "$work/word.book" --raw-names
expect 'a word in a book that is worked on' 2 ": refused: constant 0 is called \"|let|\", $misread"
run_on "$work/word.lines" work "$work/word.book" --solver cvc5
expect 'a word in a book that is worked on, with cvc5' 0 ': Proved'
