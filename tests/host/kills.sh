# The host ended by signals at random moments, and solvers whose processes outlive them: nobody is left.

make --no-print-directory target/host/kills >"$out" 2>&1 || { cat "$out"; exit 1; }

# A question on which z3 works for long.
cat >"$work/cubes.plan" <<'PLAN'
(constant x Int)
(constant y Int)
(constant z Int)
(node cubes root (and (< 1000 x) (< 1000 y) (< z -1000) (= (+ (* x x x) (* y y y) (* z z z)) 33)))
(goal no_cubes cubes (= x y))
PLAN
"$TOOLS/plan" book "$work/cubes.plan" -o "$work/cubes.book" --goals >"$work/cubes.goals" || exit 1
pair=$(cut -d ' ' -f 1,2 "$work/cubes.goals")

# Several questions, so that solvers that end are met by signals while others are started. A sanitizer would look for leaks by a process of
# its own, which a signal leaves for a moment. The pairs and words are meant to fall apart.
# shellcheck disable=SC2086
ASAN_OPTIONS=detect_leaks=0 target/host/kills "${MOMENTS:-200}" "${LONGEST:-60}" 1 z3 tests/solvers/silent.sh 'cat | z3 -smt2 -in | cat' \
    tests/solvers/setsid_child.sh tests/solvers/daemon_child.sh tests/solvers/exits_with_child.sh tests/solvers/forks_on.sh \
    tests/solvers/proves_all.sh -- $HOST prove "$work/cubes.book" $pair $pair $pair $pair >"$work/kills" 2>&1
head -n -1 "$work/kills"
counts=$(tail -n 1 "$work/kills")
case $counts in
    *' passed, '*' failed')
        passed=$((passed + ${counts%% passed,*}))
        killed_wrongly=${counts##* passed, }
        failed=$((failed + ${killed_wrongly%% failed})) ;;
    *) fail 'signals' "$counts" ;;
esac

book_of siblings
book=$work/siblings.book

# The solver's own end counts, and not that of its output, which somebody else keeps open.
fails exits_with_child 'the solver ended with status 7'
hangs setsid_child "no whole answer within $PATIENCE seconds"
hangs daemon_child "no whole answer within $PATIENCE seconds"
hangs forks_on "no whole answer within $PATIENCE seconds"
hangs stops_itself "no whole answer within $PATIENCE seconds"
