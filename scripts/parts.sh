# Sourced: the parts that the gate and its quick form share. Each counts what it ran.

# The layout of the crates' files is rt's to check.
documents() {
    part 'documents'
    one 'the wrong programs that docs/CONTRACTS.md names' scripts/named-edits.sh
}

# What rt says, without the lines that say nothing new, and with its status. All that it said stays in $log.ci.
told_by() { # command...
    "$@" >"$log.ci" 2>&1
    status=$?
    grep -v '^logic\|^library\|^statements\|^axioms\|^crate\|^checked\|^empty contracts: 0\|^[a-z]* .*: proved$' "$log.ci"
    return "$status"
}

# The library is built meanwhile: it takes one core, and these tests the other.
reference() {
    part 'reference program'
    scripts/static-library.sh >"$log.library" 2>&1 &
    library_built=$!
    if ! need cargo cargo; then
        echo 'FAILED: no cargo, and it could not be installed'
        count 0 1
        return
    fi
    (cd reference && cargo test --offline --release) >"$log" 2>&1
    status=$?
    grep '^test result\|FAILED\|panicked\|^error' "$log"
    p=$(sed -n 's/^test result: .* \([0-9]*\) passed; .*/\1/p' "$log" | awk '{ n += $1 } END { print n + 0 }')
    f=$(sed -n 's/^test result: .* passed; \([0-9]*\) failed.*/\1/p' "$log" | awk '{ n += $1 } END { print n + 0 }')
    count "$p" "$f"
    if [ "$status" -ne 0 ] && [ "$f" -eq 0 ]; then cat "$log"; count 0 1; fi
}

# The library, which the part before has built, against the reference, and from C.
library() { # words for the comparison...
    part 'the library, against the reference'
    if ! { wait "$library_built" && need cargo cargo && need cc gcc; }; then
        cat "$log.library"
        echo 'FAILED: no static library, or no compiler'
        count 0 1
        return
    fi
    counted 'comparison' cargo run --quiet --offline --release --manifest-path compare/Cargo.toml -- "$@"
    part 'the library, from C'
    for test in capi scratches references sessions turns turns_images turns_depths turns_sessions nodes audit audit_lines audit_refusals \
        audit_edges growth growth_cases growth_long growth_terms growth_sessions symbols symbol_names bad_names bad_names_order stack; do
        compiled "tests/$test.c" "target/$test" -pthread -Iinclude target/staticlib/libleskofar.a
    done
}

# A test in C that ends in a line of counts.
compiled() { # source program words for the compiler...
    source=$1
    program=$2
    shift 2
    if cc -std=c11 -Wall -Wextra -Werror -pedantic "$source" "$@" -o "$program" >"$log" 2>&1; then
        counted "$source" "$program"
    else
        cat "$log"
        echo "FAILED: $source does not compile"
        count 0 1
    fi
}

# The host, its tools, and what its tests need.
host_built() {
    need z3 z3 && need cvc5 cvc5 && need valgrind valgrind && need pkg-config pkg-config && need script bsdutils && need man man-db &&
        make --no-print-directory host target/host/leskofar-sanitized target/host/leskofar-unrandom target/host/kills target/host/deepest \
            tools >"$log" 2>&1 && return
    cat "$log"
    echo 'FAILED: no host, or what its tests need cannot be installed'
    count 0 1
    return 1
}

# Parts of the host, tried by themselves.
host_pieces() {
    compiled tests/scan.c target/host/scan host/scan.c
    compiled tests/script_lines.c target/host/script_lines -pthread -Iinclude host/script_lines.c target/staticlib/libleskofar.a
    # shellcheck disable=SC2046
    compiled tests/late.c target/host/late -D_POSIX_C_SOURCE=200809L -pthread -Iinclude $(ls host/*.c | grep -v 'host/main.c') \
        target/staticlib/libleskofar.a
}
