# The lines of `leskofar work`: those that are refused, those that cannot be read, and those that let a book grow which may not be asked.

. tests/host/working.sh

# A line that is refused is answered so, changes nothing, and the work goes on.
cat >"$lines" <<'LINES'
append term 0 1
ask 0 0
extend 0 1
append node 1 0 0
append constant 0 0
append term 4 0 --first 0
extend 0 0 "a trace"
extend 1 0
point 1 "a ""trace"""
point 2 ""
ask 3 0
ask 4 0
ask 3 99
LINES
works
expect 'refused lines' 2
cat >"$work/wanted" <<'TOLD'
0
node 0, term 0: Proved
refused 7: the node or term is not in the book
refused 7: the node or term is not in the book
refused 4, as the book would become: a field or list entry of the book is out of range, an unused field is not 0, or a letter is bad
refused 4, as the book would become: a field or list entry of the book is out of range, an unused field is not 0, or a letter is bad
1
refused 5, as the book would become: a child is not smaller than its parent, or a term is referred to twice
2
3
node 3, term 0: Proved
node 4, term 0: refused 7: the node or term is not in the book
node 3, term 99: refused 7: the node or term is not in the book
TOLD
cmp -s "$out" "$work/wanted" && [ ! -s "$err" ] && passed=$((passed + 1)) || fail 'refused lines' "another text: $(diff "$out" "$work/wanted")"
expect_solvers 'refused lines' "$worked/log" 1
run trace "$new" 3
expect_said 'the book behind refused lines' 0 '  a trace
  a "trace"
  '

# A line that cannot be read is told with its number, and ends the work: the next is not done, and no book is written.
damaged() { # complaint line
    printf '; begin\n\nappend term 0 1\n%s\nappend term 0 0\n' "$2" >"$lines"
    works
    expect "the line '$2'" 2
    [ "$(cat "$out")" = 0 ] && [ "$(cat "$err")" = "leskofar: line 4: $1" ] && [ ! -e "$new" ] && passed=$((passed + 1)) ||
        fail "the line '$2'" "$(cat "$out" "$err")"
}
damaged 'there is no command prove here; leskofar work --help lists them' 'prove 0 0'
damaged 'there is no command Ask here; leskofar work --help lists them' 'Ask 0 0'
damaged 'there is no command  here; leskofar work --help lists them' '""'
damaged 'usage: ask NODE TERM' 'ask'
damaged 'usage: ask NODE TERM' 'ask 0'
damaged 'usage: ask NODE TERM' 'ask 0 0 0'
damaged 'NODE is a number from 0 to 4294967295, not x' 'ask x 0'
damaged 'TERM is a number from 0 to 4294967295, not 4294967296' 'ask 0 4294967296'
damaged 'there is no option -1 here' 'ask 0 -1'
damaged 'usage: append name|constant|term|node ..' 'append'
damaged 'append takes name, constant, term or node, not type' 'append type x'
damaged 'usage: append name TEXT' 'append name'
damaged 'usage: append name TEXT' 'append name red 40'
damaged 'usage: append term KIND [FIELD ..] [--first N,..] [--second N,..]' 'append term --first 1'
damaged 'usage: append node PARENT TERM TRACE' 'append node 1 2'
damaged 'usage: equate PARENT CONSTANT TERM' 'equate 1 2 3 trace'
damaged 'usage: record PARENT TERM TYPE [TRACE]' 'record 1 2'
damaged 'usage: point PARENT TRACE' 'point 0'
damaged 'there is no option -o here' 'point 0 x -o y'
damaged '--first and --second are for a term' 'point 0 x --first 1'
damaged '--first needs a value' 'append term 4 0 --first'
damaged 'a quote is left open' 'append name "red'
damaged 'a quote is left open' 'append name "'
damaged 'a quote is left open' 'append name "red""'
damaged 'behind a quote that closes stands no blank' 'append name "red"40'
damaged 'a quote stands within a word' 'append name red"40"'
damaged 'there are more words than any line has' 'append name 1 2 3 4 5 6 7 8 9 10 11 12 13 14 15'
damaged "TERM is a number from 0 to 4294967295, not 0$(printf '\r')" "$(printf 'ask 0 0\r')"
printf 'append name a\nappend name b\000c\n' >"$lines"
works
expect 'a zero byte' 2 'leskofar: line 2: there is a zero byte'
[ ! -e "$new" ] && passed=$((passed + 1)) || fail 'a zero byte' 'a book is written'
printf 'append name a\nappend name b' >"$lines"
works
expect 'a line cut short' 2 'leskofar: line 2: the line has no line end'
[ ! -e "$new" ] && passed=$((passed + 1)) || fail 'a line cut short' 'a book is written'
{ printf 'append name '; head -c 2000000 /dev/zero | tr '\0' a; echo; } >"$lines"
works
expect 'an endless line' 2 'leskofar: line 1: the line is longer than any that can be done'
run_on "$worked" work "$base"
expect 'a directory of lines' 2 'leskofar: line 1: standard input cannot be read: Is a directory'

# What is no damage: blanks, tabs and comments; no lines at all; the longest name and the longest list.
printf '  append\tname   x  ; a name\n;\n \t \nappend name ";" ; and another\nappend name --first\n' >"$lines"
works
expect 'an option without its value' 2 'leskofar: line 5: --first needs a value'
printf '  append\tname   x  ; a name\n;\n \t \nappend name ";" ; and another\nappend name -- --first\n' >"$lines"
works
expect_said 'blanks and comments' 0 '0
1
2'
: >"$lines"
works
expect 'no lines' 0
[ ! -s "$out" ] && cmp -s "$new" "$base" && [ ! -s "$worked/log" ] && passed=$((passed + 1)) || fail 'no lines' 'something is done'
{ printf 'append name '; head -c 8192 /dev/zero | tr '\0' a; printf '\nappend name a\n'; } >"$lines"
works
expect 'the longest name' 2
answers >"$worked/answers"
printf '0\nrefused 3, as the book would become: a section of the book has more records than it may\n' | cmp -s - "$worked/answers" &&
    passed=$((passed + 1)) || fail 'the longest name' "$(cat "$out")"
{
    echo 'append name and'
    seq 1000 | sed 's/.*/append term 0 1/'
    echo "append term 4 0 --first $(seq -s , 0 999)"
    echo "append term 4 0 --first $(seq -s , 0 3000)"
} >"$lines"
works
expect 'a long list' 2
[ "$(tail -n 2 "$out" | cut -c 1-9 | tr '\n' ' ')" = '1000 refused 3 ' ] && passed=$((passed + 1)) || fail 'a long list' "$(tail -n 2 "$out")"

# The book that is read may be the one that is written, and is not where the work does not come to its end.
cp "$base" "$worked/same.book"
printf 'append name a\nappend name b\n' >"$lines"
run_on "$lines" work "$worked/same.book" -o "$worked/same.book"
expect_said 'the book itself' 0 '0
1'
printf 'append name c\nappend nothing\n' >"$lines"
cp "$worked/same.book" "$worked/before.book"
run_on "$lines" work "$worked/same.book" -o "$worked/same.book"
expect 'the book itself, and a bad line' 2
cmp -s "$worked/same.book" "$worked/before.book" && passed=$((passed + 1)) || fail 'the book itself, and a bad line' 'it is written'
run_on "$lines" work "$base" -o /dev/full
expect 'a bad line, and a full disk' 2 'line 2: append takes'
printf 'append name c\n' >"$lines"
run_on "$lines" work "$base" -o /dev/full
expect 'a full disk' 2 'leskofar: /dev/full: No space left on device'
run_on "$lines" work "$base" -o "$worked/other.book" --log "$worked/other.book"
expect 'the log as the new book' 2 "--log $worked/other.book is the new book, which would be overwritten"
run_on "$lines" work "$worked/same.book" --log "$worked/same.book"
expect 'the log as the book' 2 'is the book, which would be overwritten'
printf 'append term 0 1\nask 0 0\nappend term 0 1\n' >"$lines"
run_on "$lines" work "$base" --log /dev/full --solver "$stand_in" -o "$worked/unlogged.book"
expect 'a log on a full disk' 2 '/dev/full cannot be written'
[ ! -e "$worked/unlogged.book" ] && passed=$((passed + 1)) || fail 'a log on a full disk' 'a book is written'
# Two names of one file, which is not there yet.
run_on "$lines" work "$base" -o "$worked/fresh.book" --log "$worked/./fresh.book" --solver "$stand_in"
expect 'the log as the new book, by another name' 2 "--log $worked/./fresh.book is the new book, which would be overwritten"
[ ! -s "$out" ] && [ ! -s "$worked/fresh.book" ] && passed=$((passed + 1)) || fail 'the log as the new book, by another name' 'something is done'
run work /no/such/book
expect_said 'no book' 2 'leskofar: /no/such/book: No such file or directory'
run work "$base" 1
expect 'a node beside the book' 2 'usage: leskofar work BOOK [-o NEW] [OPTIONS]'
[ -z "$(find "$worked" -name '*.new-*')" ] && passed=$((passed + 1)) || fail 'work' 'a file is left beside'

# Names and sorts are checked again once the book has grown; what is asked must be a truth value.
printf 'append term 0 1\nask 0 0\npoint 0 a\nask 0 0\npoint 0 b\nask 0 0\nask 1 0\nappend term 1 7\n' >"$lines"
works
expect 'two constants of one name' 2
expect_results 'two constants of one name' 'Proved Proved refused refused'
expect 'two constants of one name, in words' 2 'node 1, term 0: refused: constant 1 and constant 0 are both called probe%0'
works --raw-names
expect 'two constants of one name, raw' 0 'leskofar: line 6: warning: constant 1 and constant 0 are both called probe%0'
expect_results 'two constants of one name, raw' 'Proved Proved Proved Proved'
expect_not 'two constants of one name, raw' 'line 7: warning'
printf 'append name <=\nappend term 1 7\nask 0 0\nappend term 4 0 --first 0\nask 0 1\nappend term 0 1\nask 0 2\n' >"$lines"
works
expect 'sorts' 2 'node 0, term 0: refused: term 0 is no truth value' 'node 0, term 1: refused: term 1' 'node 0, term 2: refused: term 1'
expect_solvers 'sorts' "$worked/log" 0
works --raw-sorts
expect 'raw sorts' 0 'line 3: warning: term 0 is no truth value' 'line 5: warning: term 1'
expect_results 'raw sorts' 'Proved Proved Proved'
