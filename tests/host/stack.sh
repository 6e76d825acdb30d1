# The deepest books that there are, with little stack and with much: the host does not end in a signal.

make --no-print-directory target/host/deepest >"$out" 2>&1 || { cat "$out"; exit 1; }
mkdir -p "$work/deepest"
target/host/deepest "$work/deepest" >"$work/deepest/list" || exit 1

# These books have neither sound names nor sound sorts, only depth.
raw='--raw-names --raw-sorts'

# The KiB that a shell can give a program for its stack.
LITTLE=256
MUCH=65536

ends() { # status, KiB of stack, arguments...
    wanted=$1
    kib=$2
    shift 2
    # The limit is for this one run.
    (
        ulimit -S -s "$kib" || exit 1
        run "$@"
        exit "$status"
    )
    status=$?
    expect "$* with $kib KiB of stack" "$wanted"
}

deep() { # KiB of stack, arguments...
    ends 0 "$@"
}

# A script of two questions, and the status of its audit: what is longer than any script that is taken cannot be accepted.
SCRIPT_MOST=65536
script=$work/deepest/script
make_script() { # book node term
    # shellcheck disable=SC2086
    run prove "$1" "$2" "$3" 0 "$3" --solver tests/solvers/proves_all.sh $raw --log "$work/deepest/log"
    script_of "$work/deepest/log" >"$script"
    audited=0
    if [ "$(wc -c <"$script")" -gt "$SCRIPT_MOST" ]; then
        printf '(check-sat)\n(check-sat)\n' >"$script"
        audited=1
    fi
}

while read -r deepest node term; do
    make_script "$deepest" "$node" "$term"
    for kib in $LITTLE $MUCH; do
        # The flags are meant to fall apart.
        # shellcheck disable=SC2086
        deep "$kib" check "$deepest" $raw
        deep "$kib" print "$deepest" "$term"
        deep "$kib" print "$deepest" "$term" --lines
        deep "$kib" listing "$deepest" "$node" "$term"
        deep "$kib" nodes "$deepest"
        ends "$audited" "$kib" audit "$deepest" "$script" "$node" "$term" 0 "$term"
        deep "$kib" append name "$deepest" x -o "$work/deepest/grown"
        # shellcheck disable=SC2086
        deep "$kib" prove "$deepest" "$node" "$term" 0 "$term" --solver tests/solvers/proves_all.sh $raw
    done
done <"$work/deepest/list"

# Without memory for it the host says so.
book_of siblings
case $HOST in
    *sanitized*) ;; # it has no use for a limit of its addresses
    *)
        (
            ulimit -S -v 5000 || exit 1
            run check "$work/siblings.book"
            exit "$status"
        )
        status=$?
        expect 'no memory for the stack' 2 'the system gives no thread with 3072 KiB of stack' ;;
esac
