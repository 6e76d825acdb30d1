# Sourced by groups that run `leskofar work`: a book without records to begin with, lines for it, and a stand-in for a solver.
worked=$work/worked
mkdir -p "$worked"
base=$worked/base.book
run new -o "$base"
expect 'a book without records' 0
lines=$worked/lines
stand_in=tests/solvers/proves_all.sh
new=$worked/new.book
works() { # arguments...
    rm -f "$new"
    run_on "$lines" work "$base" -o "$new" --solver "$stand_in" --log "$worked/log" "$@"
}

# What the last run was answered: numbers and refusals as they are, of a question only which it was.
answers() { sed -n 's/^\(node [0-9]*, term [0-9]*\): .*/\1/p; /^[0-9][0-9]*$/p; /^refused /p' "$out"; }
