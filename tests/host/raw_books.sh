# Books that may hold anything that the book test takes, and what `leskofar check` says of them. For the groups `names` and `sorts`.

raw_flags='--raw-names --raw-sorts'

raw_book() { # name plan
    raw=$work/raw.book
    rm -f "$raw"
    printf '%s\n' "$2" >"$work/raw.plan"
    # shellcheck disable=SC2086
    "$TOOLS/plan" book "$work/raw.plan" -o "$raw" $raw_flags 2>"$work/raw.told" || fail "$1" "no book: $(cat "$work/raw.told")"
}

good() { # name plan
    raw_book "$@"
    run check "$raw"
    expect "$1" 0 'a good book'
    expect_not "$1" 'warning'
}

# Refused with the complaint; with the flag it is told as a warning.
bad() { # name plan flag complaint
    raw_book "$@"
    run check "$raw"
    expect "$1" 2 "leskofar: $raw: $4"
    expect_not "$1" 'a good book'
    run check "$raw" "$3"
    expect "$1 with $3" 0 "leskofar: $raw: warning: $4" 'a good book'
}
