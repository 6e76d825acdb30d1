#!/bin/sh
# What `make install` puts where, and the README's plan, lines and program, the latter built through pkg-config and run.
#
#   LIB     the library, if another than make's own
#   README  the page with the program
#
# Ends with a line 'N passed, M failed'.
set -u
cd "$(dirname "$0")/.." || exit 1
README=${README:-README.md}
work=$(mktemp -d) || exit 1
trap 'rm -rf "$work"' EXIT
passed=0
failed=0

check() { # name command...
    name=$1
    shift
    if "$@" >"$work/said" 2>&1; then
        passed=$((passed + 1))
    else
        cat "$work/said"
        echo "FAILED: $name"
        failed=$((failed + 1))
    fi
}

prefix=/opt/leskofar
root=$work/root
check 'make install' make --no-print-directory install "PREFIX=$prefix" "DESTDIR=$root" ${LIB:+"LIB=$LIB"}
for file in bin/leskofar include/leskofar.h lib/libleskofar.a lib/pkgconfig/leskofar.pc share/man/man1/leskofar.1; do
    check "$file is there" test -s "$root$prefix/$file"
done
check 'the installed host runs' "$root$prefix/bin/leskofar" --help
check 'the man page is sound' sh -c 'said=$(man --warnings -E UTF-8 -l "$1" 2>&1 >/dev/null); echo "$said"; test -z "$said"' sh "$root$prefix/share/man/man1/leskofar.1"
for word in check print trace listing 'leskofar nodes' 'leskofar audit' prove 'leskofar new' 'append name' 'append constant' 'append term' 'append node' 'leskofar extend' 'leskofar equate' \
    'leskofar record' 'leskofar point' 'work BOOK' 'ask NODE TERM' '-o NEW' --first --second --questions --show-proof-obligations --lines --indent --tag --solver --timeout --memory --log --quiet --help; do
    check "the man page has $word" sh -c 'man -E UTF-8 -l "$1" | grep -qe "$2"' sh "$root$prefix/share/man/man1/leskofar.1" "$word"
done

# The program is the README's one block of C.
sed -n '/^```c$/,/^```$/p' "$README" | sed '/^```/d' >"$work/program.c"
export PKG_CONFIG_PATH="$root$prefix/lib/pkgconfig" PKG_CONFIG_SYSROOT_DIR="$root"
check 'pkg-config finds the library' pkg-config --exists leskofar
# shellcheck disable=SC2046
check 'the program compiles' cc -std=c11 -Wall -Wextra -Werror -pedantic "$work/program.c" $(pkg-config --cflags --libs leskofar) -o "$work/program"
check 'a book for it' reference/target/release/plan book samples/siblings.plan -o "$work/siblings.book"
# The README's plan is the sample without its comments.
sed -n '/^```plan$/,/^```$/p' "$README" | sed '/^```/d' >"$work/readme.plan"
check "the README's plan is read" reference/target/release/plan book "$work/readme.plan" -o "$work/readme.book"
check "the README's plan is the sample" cmp "$work/readme.book" "$work/siblings.book"
# The README's lines are answered as it says.
sed -n '/^```lines$/,/^```$/p' "$README" | sed '/^```/d' >"$work/readme.lines"
sed -n '/^\$ leskofar work /,/^```$/p' "$README" | sed '1d; /^```/d' >"$work/readme.told"
check 'a book to begin with' "$root$prefix/bin/leskofar" new -o "$work/first.book"
check "the README's lines are answered as it says" sh -c 'test -s "$3" && "$1" work "$2/first.book" -o "$2/first.book" <"$2/readme.lines" | cmp - "$3"' \
    sh "$root$prefix/bin/leskofar" "$work" "$work/readme.told"
check 'it writes a script that z3 answers' sh -c '"$1" <"$2" >"$3" && test "$(z3 -smt2 -in <"$3")" = unsat' sh "$work/program" "$work/siblings.book" "$work/script"

echo "$passed passed, $failed failed"
[ "$failed" -eq 0 ]
