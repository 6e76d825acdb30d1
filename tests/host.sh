#!/bin/sh
# The host as it is run: with z3 and cvc5, with solvers that fail, and on made plans whose truth is known.
#
#   HOST      the command to test; may have words before it, such as valgrind's
#   UNRANDOM_HOST  the host on a system that gives no random bits
#   TOOLS     where the reference's tools `plan`, `chains`, `books`, `apart`, `mutants` and `splices` are
#   PLANS     how many made plans z3 is asked, and OTHER_PLANS how many cvc5
#   VERDICTS  how many random books host and plan tool judge, and VERDICTS_SEED where they begin
#   PARTS     which of the groups in tests/host/
#   PATIENCE  how many seconds a silent solver gets
#   NODE_PLANS  how many plans with axioms that have no term, NODE_LISTS with how many lists of nodes, and NODE_CHANGES how many books
#             with a byte changed
#   AUDIT_STEP  how many lines of a script lie between two that are changed
#   GROWTH_CHANGES  how many books with a byte changed are to grow
#   WORK_PLANS  how many made plans grow while they are asked
#   STRANGERS  how many random books that are told apart both solvers are asked
#   MUTANTS   how many plans are changed at random, by MUTANTS_SEED
#   SPLICES   how many runs have a real solver's answers spoilt
#   STEP      how many bytes lie between two at which a solver dies
#   LARGE     how many bytes the large model has
#   MOMENTS   at how many moments each signal ends the host, and LONGEST how many milliseconds they are behind its start at most
#
# Ends with a line 'N passed, M failed'.
set -u
cd "$(dirname "$0")/.." || exit 1
HOST=${HOST:-target/host/leskofar}
UNRANDOM_HOST=${UNRANDOM_HOST:-target/host/leskofar-unrandom}
TOOLS=${TOOLS:-reference/target/release}
PLANS=${PLANS:-500}
OTHER_PLANS=${OTHER_PLANS:-50}
VERDICTS=${VERDICTS:-500}
VERDICTS_SEED=${VERDICTS_SEED:-20260111}
NODE_PLANS=${NODE_PLANS:-25}
NODE_LISTS=${NODE_LISTS:-20}
NODE_CHANGES=${NODE_CHANGES:-200}
AUDIT_STEP=${AUDIT_STEP:-1}
GROWTH_CHANGES=${GROWTH_CHANGES:-100}
WORK_PLANS=${WORK_PLANS:-40}
STRANGERS=${STRANGERS:-100}
MUTANTS=${MUTANTS:-2000}
MUTANTS_SEED=${MUTANTS_SEED:-24}
# A changed quantifier may keep a solver busy for ever, and so may a random one.
MUTANT_PATIENCE=1
STRANGER_PATIENCE=1
SPLICES=${SPLICES:-1000}
PATIENCE=${PATIENCE:-1}
# One that spoils answers ends by itself; this only keeps a run from hanging.
SPLICE_PATIENCE=10
STEP=${STEP:-2}
# No run takes longer, whatever its solver does.
HANGS_AFTER=120
export LARGE="${LARGE:-20000000}"

work=$(mktemp -d) || exit 1
trap 'rm -rf "$work"' EXIT
export SOLVER_PIDS="$work/pids"
export ONCE="$work/once"
out=$work/out
err=$work/err
passed=0
failed=0

fail() { # name why
    echo "FAILED: $1: $2"
    failed=$((failed + 1))
    is_good=no
}

# Runs the host; its output, errors and status are looked at by what follows.
run() { # arguments...
    : >"$SOLVER_PIDS"
    # The host's words are meant to fall apart.
    # shellcheck disable=SC2086
    timeout "$HANGS_AFTER" $HOST "$@" >"$out" 2>"$err" <"$input"
    status=$?
}
input=/dev/null

# The same with a file on standard input.
run_on() { # file arguments...
    input=$1
    shift
    run "$@"
    input=/dev/null
}

# Whether a process is there; one that has ended and that nobody has waited for yet is not.
lives() { # number
    [ -r "/proc/$1/stat" ] && ! grep -q '^[0-9]* (.*) Z' "/proc/$1/stat" 2>/dev/null
}

somebody_lives() {
    while read -r pid; do
        lives "$pid" && return 0
    done <"$SOLVER_PIDS"
    return 1
}

# The host waits for the solver itself; who else was killed with it takes a moment to go.
nobody_is_left() {
    tries=0
    while somebody_lives; do
        tries=$((tries + 1))
        [ "$tries" -lt 20 ] || return 1
        sleep 0.1
    done
    return 0
}

# The status of the last run, and texts that its output must have.
expect() { # name status [text...]
    name=$1
    is_good=yes
    [ "$status" -eq "$2" ] || fail "$name" "status $status, not $2: $(head -c 500 "$out" "$err")"
    shift 2
    for text in "$@"; do
        grep -qF -- "$text" "$out" "$err" || fail "$name" "no '$text' in $(head -c 500 "$out" "$err")"
    done
    nobody_is_left || fail "$name" 'a process is left'
    [ "$is_good" = no ] || passed=$((passed + 1))
}

# The status of the last run, and all that it has said: on standard output, or where it is refused on standard error.
expect_said() { # name status text
    expect "$1" "$2"
    printf '%s\n' "$3" >"$work/wanted"
    case $2 in
        0 | 1) cmp -s "$out" "$work/wanted" && [ ! -s "$err" ] ;;
        *) cmp -s "$err" "$work/wanted" && [ ! -s "$out" ] ;;
    esac && passed=$((passed + 1)) || fail "$1" "another text: $(head -c 500 "$out" "$err")"
}

# What the last run must not have said.
expect_not() { # name text
    if grep -qF -- "$2" "$out" "$err"; then
        fail "$1" "there is '$2'"
    else
        passed=$((passed + 1))
    fi
}

# The last run's results, a word for each question.
expect_results() { # name results
    results=$(sed -n 's/^node [0-9]*, term [0-9]*: \([A-Za-z]*\).*/\1/p' "$out" | tr '\n' ' ')
    if [ "$results" = "$2 " ]; then
        passed=$((passed + 1))
    else
        fail "$1" "results $results"
    fi
}

# How many solvers a run has started, by its log.
expect_solvers() { # name log count
    if [ "$(grep -c '^; a new solver$' "$2")" -eq "$3" ]; then
        passed=$((passed + 1))
    else
        fail "$1" "not $3 solvers"
    fi
}

# A sample as a book, with its goals' numbers.
book_of() { # sample
    "$TOOLS/plan" book "samples/$1.plan" -o "$work/$1.book" --goals >"$work/$1.goals" || exit 1
    pairs=$(cut -d ' ' -f 1,2 "$work/$1.goals" | tr '\n' ' ')
}

# A plan as a book, with its goals' numbers. With words: options of the plan tool.
made() { # name [option...]
    made_name=$1
    shift
    "$TOOLS/plan" book "$work/$made_name.plan" -o "$work/$made_name.book" --goals "$@" >"$work/$made_name.goals" 2>"$err" || {
        fail "$made_name" "no book: $(cat "$err")"
        return
    }
    pairs=$(cut -d ' ' -f 1,2 "$work/$made_name.goals" | tr '\n' ' ')
}

# The last run's log, run again as a script, gives the replies that the run told.
again() { # name solver log
    case $2 in
        z3) z3 -smt2 "$3" ;;
        cvc5) cvc5 --lang=smt2 --incremental --produce-models --force-logic=ALL "$3" ;;
    esac | grep -x 'sat\|unsat\|unknown' >"$work/replayed"
    sed -n -e 's/^node .*: Proved.*/unsat/p' -e 's/^node .*: Unproved (\([a-z]*\)).*/\1/p' "$out" >"$work/wanted"
    [ -s "$work/wanted" ] && cmp -s "$work/replayed" "$work/wanted" && passed=$((passed + 1)) ||
        fail "$1" "run again: $(tr '\n' ' ' <"$work/replayed") and not $(tr '\n' ' ' <"$work/wanted")"
}

# The sections of a book, the letters being the first, and how many records one has.
NAMES=2
TERMS=8
CONTEXTS=9
count_of() { # book section
    od -An -v -tu4 -w8 -N80 "$1" | awk -v section="$2" 'NR == section { print $2 }'
}

# The script that a log holds: what sessions sent, without what the host adds to it.
script_of() { # log
    grep -v '^;\|^(set-option\|^(echo' "$1"
}

# A solver that answers gets time enough, also on a busy machine.
ENOUGH=60
seconds=$ENOUGH
fault() { # solver status [text...]
    solver=$1
    shift
    run prove "$book" 3 34 --timeout "$seconds" --solver "exec tests/solvers/$solver.sh"
    expect "$solver" "$@"
}

# A solver whose question must come out as failed, and never as proved.
fails() { # solver [text...]
    solver=$1
    shift
    fault "$solver" 3 'Unproved, the solver failed' "$@"
    expect_not "$solver" ': Proved'
}

# One that does not end by itself.
hangs() { # solver [text...]
    seconds=$PATIENCE
    fails "$@"
    seconds=$ENOUGH
}

for group in ${PARTS:-usage names symbols bad_names sorts verdicts samples nodes audit growth lines work depths faults attacks limits kills stack engines strangers mutants splices plans}; do
    . "tests/host/$group.sh"
done

echo "$passed passed, $failed failed"
[ "$failed" -eq 0 ]
