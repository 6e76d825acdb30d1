# What --solver names: a solver by its path, and commands for the shell. And the memory that it may have.

book_of siblings
book=$work/siblings.book

# A path that has to be quoted in a shell is a path all the same.
mkdir -p "$work/my solvers"
for solver in z3 cvc5; do
    path=$(command -v "$solver") || exit 1
    ln -sf "$path" "$work/my solvers/$solver"
    for named in "$path" "$work/my solvers/$solver" "$work/../$(basename "$work")/my solvers/$solver"; do
        # A model: without its own options cvc5 has none.
        # shellcheck disable=SC2086
        run prove "$book" $pairs --solver "$named"
        expect "$named" 1 '(define-fun box_3 () Int'
        expect_results "$named" 'Proved Unproved Proved'
    done
done
run prove "$book" 3 34 --solver /no/such/z3
expect 'a path to no solver' 3 'the solver could not be started' '/no/such/z3: No such file or directory'

# Commands of plain words, and those in which the shell has a part.
for command in 'z3 -smt2 -in' '  z3 -smt2 -in  ' 'exec z3 -smt2 -in' 'command z3 -smt2 -in' 'eval z3 -smt2 -in' 'LANG=C z3 -smt2 -in' \
    'env LANG=C z3 -smt2 -in' 'z3 -smt2 -in | cat' 'cd / && z3 -smt2 -in' 'if true; then z3 -smt2 -in; fi' '"z3" -smt2 -in'; do
    # shellcheck disable=SC2086
    run prove "$book" $pairs --solver "$command"
    expect "$command" 1
    expect_results "$command" 'Proved Unproved Proved'
done
# The shell becomes a command of plain words: the solver is its keeper's own child.
cat >"$work/parent.sh" <<'SOLVER'
#!/bin/sh
tr '\0' ' ' <"/proc/$PPID/cmdline" >"$PARENT"
SOLVER
chmod +x "$work/parent.sh"
export PARENT="$work/parent"
run prove "$book" 3 34 --solver "$work/parent.sh -smt2"
grep -q ' prove ' "$PARENT" && passed=$((passed + 1)) || fail 'a command of plain words' "started by $(cat "$PARENT")"

# More memory than the system allows.
(
    ulimit -v 4096000 || exit 1
    run prove "$book" 3 34 --memory 4001 --log "$work/never.log"
    exit "$status"
)
status=$?
case $HOST in
    *sanitized*) ;; # it has no use for a limit of its addresses
    *)
        expect 'more memory than there may be' 2 '--memory 4001: the system allows at most 4000 MiB'
        [ ! -e "$work/never.log" ] && passed=$((passed + 1)) || fail 'more memory than there may be' 'something was started' ;;
esac

# Too little of it.
for solver in z3 cvc5; do
    for mib in 1 20; do
        run prove "$book" 3 34 --memory "$mib" --solver "$solver"
        expect "$solver with $mib MiB" 3 "its memory is limited to $mib MiB, which may not suffice"
    done
done
