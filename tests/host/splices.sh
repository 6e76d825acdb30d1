# A real solver's answers, spoilt at random: cut, doubled, held back, mixed with others. What must never come is known from arithmetic:
# at node 3 the limit holds (1 + 1), at nodes 4 (1 + 4) and 1 (any way) it does not.

book_of siblings
mkdir -p "$work/splices"
: >"$SOLVER_PIDS"

# Every second seed from the first on, so that two rows of runs go side by side.
spliced_runs() { # first
    seed=$1
    while [ "$seed" -le "$SPLICES" ]; do
        at=$work/splices/$seed
        # shellcheck disable=SC2086
        timeout "$HANGS_AFTER" $HOST prove "$work/siblings.book" 3 34 4 34 3 34 1 34 --timeout "$SPLICE_PATIENCE" \
            --solver "exec $TOOLS/splices $seed $at.tally" >"$at.out" 2>"$at.err" </dev/null
        echo $? >"$at.status"
        seed=$((seed + 2))
    done
}
spliced_runs 1 &
spliced_runs 2 &
wait

# One run: each question answered once and in its turn, none wrongly, and an end of its own.
judge_splice() { # seed
    at=$work/splices/$1
    asked=$(sed -n 's/^node \([0-9]*\), term 34: .*/\1/p' "$at.out" | tr '\n' ' ')
    is_good=yes
    [ "$asked" = '3 4 3 1 ' ] || fail "splice $1" "answered were $asked"
    ! grep -q '^node [41], term 34: Proved' "$at.out" || fail "splice $1" 'a wrong Proved'
    ! grep -qF 'no whole answer within' "$at.out" || fail "splice $1" 'an ended solver was waited for'
    case $(cat "$at.status") in
        1) untouched=$((untouched + 1)) ;;
        3) spoilt=$((spoilt + 1)) ;;
        *) fail "splice $1" "status $(cat "$at.status"): $(head -c 300 "$at.err")" ;;
    esac
    [ "$is_good" = no ] || passed=$((passed + 1))
}

untouched=0
spoilt=0
number=1
while [ "$number" -le "$SPLICES" ]; do
    judge_splice "$number"
    number=$((number + 1))
done
cat "$work"/splices/*.tally >"$work/tally"
echo "$SPLICES spliced runs: $spoilt with a fault, $untouched without; $(grep -c -v '^solver$\|^spared$' "$work/tally") answers spoilt," \
    "$(grep -c '^spared$' "$work/tally") lies left unsaid that no host can find out"

# Else nothing is shown.
[ "$spoilt" -ge $((SPLICES / 5)) ] && passed=$((passed + 1)) || fail 'splices' 'too few runs with a fault'
[ "$untouched" -ge $((SPLICES / 5)) ] && passed=$((passed + 1)) || fail 'splices' 'too few runs without a fault'
nobody_is_left && passed=$((passed + 1)) || fail 'splices' 'a process is left'
