# Made plans of box chains: host and solver answer as the truth is, which was worked out without either.

mkdir -p "$work/chains"
"$TOOLS/chains" "$work/chains" "$PLANS" >"$work/made" || exit 1
cat "$work/made"
case $(cat "$work/made") in
    *' 0 plans with siblings'*) fail 'made plans' 'no siblings that differ' ;;
    *) passed=$((passed + 1)) ;;
esac

plan() { # number solver
    # shellcheck disable=SC2046
    run prove "$work/chains/$1.book" $(cut -d ' ' -f 1,2 "$work/chains/$1.questions") --solver "$2"
    sed -n 's/^node \([0-9]*\), term \([0-9]*\): \([A-Za-z]*\).*/\1 \2 \3/p' "$out" >"$work/results"
    if cmp -s "$work/results" "$work/chains/$1.questions"; then
        passed=$((passed + 1))
    else
        fail "made plan $1 with $2" "$(diff "$work/results" "$work/chains/$1.questions" | head -5)"
    fi
}

number=1
while [ "$number" -le "$PLANS" ]; do
    plan "$number" z3
    [ "$number" -gt "$OTHER_PLANS" ] || plan "$number" cvc5
    number=$((number + 1))
done
