# Random books, good and bad: host and plan tool, written apart from the same rules, say the same of their names and sorts.

# The statuses for a bad book; 0 is a good one's.
PLAN_BAD=1
HOST_BAD=2

mkdir -p "$work/verdicts"
"$TOOLS/books" "$work/verdicts" "$VERDICTS" "$VERDICTS_SEED" || exit 1

good_count=0
bad_count=0
# Looks at one book with some flags.
verdict() { # number [flag...]
    number=$1
    shift
    judged=$work/verdicts/$number.book
    run check "$judged" "$@"
    timeout "$HANGS_AFTER" "$TOOLS/plan" check "$judged" "$@" >"$work/plan.out" 2>"$work/plan.err" </dev/null
    case $status.$? in
        0.0) good_count=$((good_count + 1)) ;;
        "$HOST_BAD.$PLAN_BAD") bad_count=$((bad_count + 1)) ;;
        *)
            fail "book $number of seed $VERDICTS_SEED with flags '$*'" "host: $(cat "$out" "$err") plan: $(cat "$work/plan.out" "$work/plan.err")"
            return
            ;;
    esac
    passed=$((passed + 1))
}

# The first books with some flags.
verdicts() { # count [flag...]
    count=$1
    shift
    good_count=0
    bad_count=0
    number=1
    while [ "$number" -le "$count" ]; do
        verdict "$number" "$@"
        number=$((number + 1))
    done
    echo "$count books with flags '$*': $good_count good, $bad_count bad"
}

# A verdict that hardly ever comes is not tried.
is_tried() { # name count
    [ $((10 * $2)) -ge "$VERDICTS" ] && passed=$((passed + 1)) || fail "$1" "only $2 of $VERDICTS books"
}

for flag in '' --raw-names --raw-sorts; do
    # No flag is no argument.
    # shellcheck disable=SC2086
    verdicts "$VERDICTS" $flag
    is_tried "good books with flags '$flag'" "$good_count"
    is_tried "bad books with flags '$flag'" "$bad_count"
done

# With both flags everything goes.
verdicts $(((VERDICTS + 9) / 10)) --raw-names --raw-sorts
[ "$bad_count" -eq 0 ] && passed=$((passed + 1)) || fail 'books with both flags' "$bad_count are refused"
