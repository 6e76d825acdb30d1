# Sourced by the scripts that run tests: adds up what each part counts, and says how long it took.
passed=0
failed=0
log=$(mktemp) || exit 1
trap 'rm -f "$log" "$log.ci" "$log.beside" "$log.library"' EXIT

count() { # passed failed
    passed=$((passed + $1))
    failed=$((failed + $2))
}

# The heading of a part; the time of the one before it is told first.
part() { # name
    part_ended
    part_name=$1
    part_began=$(date +%s)
    printf '\n== %s\n' "$1"
}

part_name=
part_ended() {
    [ -z "$part_name" ] || echo "-- $part_name: $(($(date +%s) - part_began)) s"
    part_name=
}

# One test: a command that must succeed.
one() { # name command...
    name=$1
    shift
    if "$@" >"$log" 2>&1; then
        echo "ok: $name"
        count 1 0
    else
        cat "$log"
        echo "FAILED: $name"
        count 0 1
    fi
}

# A part that ends in a line of counts of its own.
counted() { # name command...
    name=$1
    shift
    "$@" >"$log" 2>&1
    status=$?
    cat "$log"
    last=$(tail -n 1 "$log")
    case $last in
        *' passed, '*' failed')
            f=$(echo "$last" | sed 's/.* passed, \([0-9]*\) failed/\1/')
            count "${last%% passed,*}" "$f"
            [ "$status" -eq 0 ] || [ "$f" -gt 0 ] || count 0 1 ;;
        *)
            echo "FAILED: $name"
            count 0 1 ;;
    esac
}

# Two such parts at once, since they mostly wait; what they say comes one behind the other. Each command is a function.
counted_beside() { # name function name function
    "$4" >"$log.beside" 2>&1 &
    beside=$!
    counted "$1" "$2"
    wait "$beside"
    beside_status=$?
    told_beside() {
        cat "$log.beside"
        return "$beside_status"
    }
    counted "$3" told_beside
}

# The closing line, and the status.
close() {
    part_ended
    printf '\n%s passed, %s failed\n' "$passed" "$failed"
    [ "$failed" -eq 0 ]
}
