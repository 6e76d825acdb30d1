# Solvers that fail, each in its own way.

book_of siblings
book=$work/siblings.book

fault proves_all 0 ': Proved'
fault quotes_echo 0 ': Proved'
fault denies_all 1 ': Unproved (sat)' '    sat' '((define-fun x () Int 1))'

fails killed_before_reply 'before its answer was whole'
fails killed_in_reply 'before its answer was whole' 'its output: uns'
fails killed_behind_reply 'before its answer was whole' 'its output: unsat'
fails ends_with_status 'ended with status 7' 'out of patience'
hangs silent "no whole answer within $PATIENCE seconds"
hangs endless
hangs endless_errors "no whole answer within $PATIENCE seconds" 'its error output: trouble'
hangs endless_string
fails closed_input 'closed its input'
fails closed_output 'closed its output'
hangs never_reads "no whole answer within $PATIENCE seconds"
fails ends_at_once
fails wrong_first_line 'Welcome to the solver'
hangs rubbish
fails unbalanced 'answered the check with ((((unsat'
fails closes_too_much ')unsat'
fails unsupported 'answered the check with unsupported'
fails errors_before 'unknown constant' 'unsat'
fails no_reply 'gave no reply to the check'
hangs foreign_mark "no whole answer within $PATIENCE seconds"
fails success 'success'
fails almost_unsat 'unsat-core'
fails barred_unsat '|unsat|'
fails comment_beside '; by luck'
fails too_early 'had written something before the question was sent' 'its output: unsat'
hangs same_line "no whole answer within $PATIENCE seconds"
hangs foreign_fence "no whole answer within $PATIENCE seconds"

# A solver that fails at the model has given its reply, and that is not lost.
fails_at_model() { # solver [text...]
    solver=$1
    shift
    fault "$solver" 3 ': Unproved (sat), the solver failed at the model' '    sat' '  no model came:' "$@"
}
fails_at_model killed_at_model 'before its answer was whole' '((define-fun x () Int'
fails_at_model rubbish_model "the solver's answer is no model: sat sat"
fails_at_model model_with_quote "the solver's answer is no model: ((define-fun a\"b () Int 1))"
seconds=$PATIENCE
fails_at_model silent_at_model "no whole answer within $PATIENCE seconds"
fails_at_model model_never_ends
seconds=$ENOUGH

# No fault: the solver does not know, or has no model. A model behind unknown is called what it is.
fault unknown 1 ': Unproved (unknown)' '    unknown' '  no model came:' '(error "there is no model")'
expect_not 'unknown' 'failed'
fault unsupported_model 1 ': Unproved (sat)' '    sat' '  no model came:'
expect_not 'unsupported_model' 'failed'
fault unknown_with_model 1 ': Unproved (unknown)' '  reason, with a model that is no counterexample:' '((define-fun x () Int 1))'
fault denies_all 1 '  reason:'
expect_not 'denies_all' 'no counterexample'

run prove "$book" 3 34 --solver /no/such/solver
expect 'no such solver' 3 'the solver could not be started' '/no/such/solver'
# A PATH with nothing on it but what starts the host.
PATH_BEFORE=$PATH
mkdir -p "$work/bare"
for tool in timeout valgrind; do
    path=$(command -v "$tool") || continue
    printf '#!/bin/sh\nexec %s "$@"\n' "$path" >"$work/bare/$tool"
    chmod +x "$work/bare/$tool"
done
PATH=$work/bare
run prove "$book" 3 34 --solver z3
PATH=$PATH_BEFORE
expect 'z3 is not there' 3 'the solver could not be started' 'z3: No such file or directory'

# Errors for a pop come with the next question, and fail that one alone.
run prove "$book" 3 34 3 34 3 34 --solver tests/solvers/error_at_pop.sh
expect 'error_at_pop' 3 'no level'
expect_results 'error_at_pop' 'Proved Unproved Proved'

# A reply too many does not answer the next question, and neither does one that comes too late.
run prove "$book" 3 34 4 34 --solver tests/solvers/replies_twice.sh
expect 'replies_twice' 3 'had written something before the question was sent'
expect_not 'replies_twice' ': Proved'
run prove "$book" 3 34 4 34 --solver tests/solvers/left_over.sh
expect 'left_over' 3 'had written something before the question was sent'
expect_results 'left_over' 'Proved Unproved'

# Nor do replies and marks inside a model.
run prove "$book" 3 34 4 34 3 34 --solver tests/solvers/hides_mark.sh
expect 'hides_mark' 1
expect_results 'hides_mark' 'Unproved Unproved Unproved'

# After a failure: a new solver, a fresh session, and no question lost.
rm -f "$ONCE"
run prove "$book" 4 34 3 34 4 34 3 34 --solver tests/solvers/fails_once.sh --log "$work/once.log"
expect 'fails_once' 3
expect_results 'fails_once' 'Unproved Proved Unproved Proved'
expect_solvers 'fails_once' "$work/once.log" 2

# A solver that closes its input behind an answer is not waited for: each question gets a new one, long before the time is over.
before=$(date +%s)
run prove "$book" 3 34 3 34 3 34 --timeout "$ENOUGH" --solver 'exec tests/solvers/answers_once.sh'
expect 'answers_once' 0
expect_results 'answers_once' 'Proved Proved Proved'
[ $(($(date +%s) - before)) -lt "$ENOUGH" ] && passed=$((passed + 1)) || fail 'answers_once' 'it is waited for'

# Each question of a solver that always fails gets its own answer.
run prove "$book" 3 34 4 34 1 34 --solver tests/solvers/killed_before_reply.sh
expect 'all fail' 3
expect_results 'all fail' 'Unproved Unproved Unproved'
run prove "$book" 3 34 --quiet --solver tests/solvers/ends_with_status.sh
expect 'a failure is told although quiet' 3 'node 3, term 34: Unproved, the solver failed: the solver ended with status 7' 'out of patience'

# What a solver says on its standard error is told where it fails, and where that is asked for.
run prove "$book" 3 34 --solver tests/solvers/talks_aside.sh
expect 'an aside' 0 ': Proved'
expect_not 'an aside' 'an aside'
run prove "$book" 3 34 --verbose --solver tests/solvers/talks_aside.sh
expect 'an aside that is asked for' 0 ': Proved' "the solver's error output: an aside"
