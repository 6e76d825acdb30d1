# The commands that write books: what each appends, by the number that it prints and by what the book then says; files; and refusals,
# after which nothing is written.

grown=$work/grown
mkdir -p "$grown"
base=$grown/base.book
new=$grown/new.book

# The last run wrote a good book and printed just this number.
expect_number() { # name number book
    expect_said "$1" 0 "$2"
    run check "$3" --raw-names --raw-sorts
    expect "$1 leaves a good book" 0 'a good book'
}

expect_size() { # name book bytes
    [ "$(wc -c <"$2")" -eq "$3" ] && passed=$((passed + 1)) || fail "$1" "$(wc -c <"$2") bytes, not $3"
}

expect_text() { # name text command...
    wanted=$2
    called=$1
    shift 2
    run "$@"
    expect_said "$called" 0 "$wanted"
}

run new -o "$base"
expect 'a book without records' 0
[ ! -s "$out" ] && passed=$((passed + 1)) || fail 'a book without records' 'it says something'
expect_size 'a book without records' "$base" 80
[ "$(od -An -v -tu4 -w8 "$base" | sort -u | tr -s ' ')" = ' 80 0' ] && passed=$((passed + 1)) || fail 'a book without records' 'another table'
run nodes "$base"
expect 'its nodes' 0 'the book has no node but the root'

# The worked book: from no records to a point of the trace and a record of the term 7.
run point "$base" 0 start -o "$new"
expect_number 'a point' 1 "$new"
expect_size 'a point' "$new" 229
expect_size 'the book that was read' "$base" 80
run append term "$new" 1 7 -o "$new"
expect_number 'the term 7' 3 "$new"
run record "$new" 1 3 1 -o "$new"
expect_number 'a record of it' 2 "$new"
expect_size 'a record of it' "$new" 356
expect_text 'its trace' '  start
  probe%1' trace "$new" 2
expect_text 'its premises' '----- Proof obligation:
  =(probe%0, true)
  =(probe%1, 7)
  |-
  true' listing "$new" 2 0

# Every kind of term, and every way to hang a node, on a book with a function and a pattern. `plan text` is written apart.
printf '(type T)\n(constant x Int)\n(function f (Int) Int)\n(pattern p ((f 1)))\n(term free (< x 1))\n' >"$grown/rich.plan"
"$TOOLS/plan" book "$grown/rich.plan" -o "$grown/rich.book" || exit 1
first=$(count_of "$grown/rich.book" "$TERMS")
named=$(count_of "$grown/rich.book" "$NAMES")
cp "$grown/rich.book" "$new"
next=$first
appends() { # words for the term...
    run append term "$new" "$@" -o "$new"
    expect_number "term $*" "$next" "$new"
    next=$((next + 1))
}
prints() { # text
    expect_text "term $((next - 1))" "$1" print "$new" $((next - 1))
}
run append name "$new" red -o "$new"
expect_number 'a name' "$named" "$new"
run append name "$new" 'and' --first 1 -o "$grown/none.book"
expect_said 'lists for a name' 2 'leskofar: --first and --second are for a term'
run append name "$new" -o "$new" -- '-'
expect_number 'a name of a minus' $((named + 1)) "$new"
run append -o "$new" name "$new" -- '-x y'
expect_number 'options before, and a text like one' $((named + 2)) "$new"
run append "$new" name x -o "$new"
expect_said 'a book before what is appended' 2 "leskofar: append takes name, constant, term or node, not $new"
run append name "$new" '' -o "$new"
expect_number 'a name without letters' $((named + 3)) "$new"
run append constant "$new" "$named" 2 -o "$new"
expect_number 'a constant' 1 "$new"
appends 0
prints false
appends 0 1
prints true
appends 1 4294967291 4294967295
prints '(- 5)'
appends 2 "$named" 2
prints '|red:T|'
appends 3 1
prints red
appends 4 $((named + 1)) --first $((first + 2))
prints '(- (- 5))'
appends 5 0 0 0 0 0 0 --first=$((first + 5))
prints '(f (- (- 5)))'
appends 3 0
appends 1 1
appends 6 "$first" $((first + 7)) $((first + 8))
prints '(ite false x 1)'
appends 3 0
appends 7 0 $((first + 9)) $((first + 10))
prints '(let ((x (ite false x 1))) x)'
appends 8 1 0 0 0 0 $((first + 1)) --second 0 --first 0,1
prints '(forall ((x Int) (red T)) (! true :pattern ((f 1))))'
appends 8 0 0 0 0 0 $((first + 12))
prints '(forall ((x Int) (red T)) (! true :pattern ((f 1))))'
run append node "$new" 0 $((first + 13)) 0 -o "$new"
expect_number 'a node' 1 "$new"
run append node "$new" 1 $((first + 3)) $((named + 3)) -o "$new"
expect_number 'a node with a trace' 2 "$new"
run extend "$new" 2 $((first + 4)) 'three' -o "$new"
expect_number 'a premise' 3 "$new"
run extend "$new" 3 $((first + 6)) -o "$new"
expect_number 'a premise without a trace' 4 "$new"
run append term "$new" 1 9 -o "$new"
run equate "$new" 4 0 $((first + 14)) -o "$new"
expect_number 'an equality' 5 "$new"
run append term "$new" 1 8 -o "$new"
run record "$new" 5 $((first + 17)) 1 'seen' -o "$new"
expect_number 'a record with a trace' 6 "$new"
run point "$new" 6 '' -o "$new"
expect_number 'a point with an empty trace' 7 "$new"
expect_text 'all traces' '  -x y
  three
  seen
  ' trace "$new" 7
expect_text 'all premises' '----- Proof obligation:
  (exists  (forall x: int, red: T pattern f(1) true))
  red:T
  red
  f(-(-5))
  =(x, 9)
  =(probe%5, 8)
  =(probe%6, true)
  |-
  true' listing "$new" 7 $((first + 1))

# What is refused, in words, and nothing is written: a new file is not there, and one that is there is as it was.
cp "$base" "$grown/kept.book"
refuses() { # words for the refusal, then the command's
    wanted=$1
    shift
    for to in "$grown/none.book" "$grown/kept.book" "$new"; do
        cp "$new" "$grown/before.book"
        run "$@" -o "$to"
        expect "refused: $*" 2 "$wanted"
        [ ! -s "$out" ] && [ ! -e "$grown/none.book" ] && cmp -s "$grown/kept.book" "$base" && cmp -s "$new" "$grown/before.book" &&
            passed=$((passed + 1)) || fail "refused: $*" 'something is said or written'
    done
}
outside='refused 7: the node or term is not in the book'
would='as the book would become:'
refuses "$outside" append node "$new" 8 0 0
refuses "$outside" append node "$new" 0 1024 0
refuses "$outside" extend "$new" 4294967295 0
refuses "$outside" equate "$new" 0 0 4294967295
refuses "$outside" record "$new" 8 0 1
refuses "$outside" point "$new" 8 x
refuses "refused 4, $would a field or list entry of the book is out of range" append node "$new" 0 0 999
refuses "refused 4, $would" append constant "$new" 999 1
refuses "refused 4, $would" append constant "$new" 0 3
refuses "refused 4, $would" append term "$new" 9
refuses "refused 4, $would" append term "$new" 4 0 1
refuses "refused 4, $would" append term "$new" 3 0 --first 1
refuses "refused 4, $would" append term "$new" 4 0 --second 1
refuses "refused 4, $would" append name "$new" "$(printf 'a\tb')"
refuses "refused 4, $would" extend "$new" 0 "$first" "$(printf 'a\177')"
refuses "refused 4, $would" equate "$new" 0 999 "$first"
refuses "refused 5, $would a child is not smaller than its parent" extend "$new" 0 "$first"
refuses "refused 5, $would" append term "$new" 4 0 --first "$(count_of "$new" "$TERMS")"
# A full book, with a node 400 deep: what would be the 513th node is refused 3 wherever it hangs.
{
    echo '(constant p Bool)'
    seq 512 | awk '{ print "(node n" $1 " " ($1 % 400 == 1 ? "root" : "n" $1 - 1) " p)" }'
    echo '(goal g root p)'
} >"$grown/full.plan"
"$TOOLS/plan" book "$grown/full.plan" -o "$grown/full.book" || exit 1
for parent in 400 512; do
    refuses "refused 3, $would a section of the book has more records than it may" extend "$grown/full.book" "$parent" 512
done
sed '/n512/d' "$grown/full.plan" >"$grown/deep.plan"
"$TOOLS/plan" book "$grown/deep.plan" -o "$grown/deep.book" || exit 1
refuses "refused 6, $would a node is deeper than 400" extend "$grown/deep.book" 400 511
run extend "$grown/deep.book" 511 511 -o "$grown/full.book"
expect_number 'the last node' 512 "$grown/full.book"

# Wrong usage, with the book not even read.
for words in 'append name BOOK' 'append name BOOK a b' 'append constant BOOK 1' 'append constant BOOK 1 2 3' 'append term BOOK' \
    'append term BOOK 1 2 3 4 5 6 7 8' 'append node BOOK 1 2' 'append node BOOK 1 2 3 4' 'extend BOOK 1' 'extend BOOK 1 2 a b' \
    'equate BOOK 1 2' 'equate BOOK 1 2 3 4' 'record BOOK 1 2' 'record BOOK 1 2 3 a b' 'point BOOK 1' 'point BOOK 1 a b' 'append'; do
    # The words are meant to fall apart.
    # shellcheck disable=SC2086
    run $words -o "$grown/none.book"
    expect "$words" 2 "usage: leskofar ${words%% BOOK*}"
done
run append name /no/such/book x -o "$grown/none.book"
expect_said 'no book' 2 'leskofar: /no/such/book: No such file or directory'
run append name "$base" x
expect_said 'no file to write' 2 'leskofar: usage: leskofar append name BOOK TEXT -o NEW'
run point "$base" 0 x
expect_said 'no file to write a point' 2 'leskofar: usage: leskofar point BOOK PARENT TRACE -o NEW'
run new
expect_said 'no file for a new book' 2 'leskofar: usage: leskofar new -o BOOK'
run new "$base" -o "$grown/none.book"
expect_said 'a new book from another' 2 'leskofar: usage: leskofar new -o BOOK'
for list in '' ',' '1,' ',1' '1,,2' x '1,x' 4294967296 '1,4294967296' ' 1' '1 ,2' -1; do
    run append term "$base" 4 0 --first "$list" -o "$grown/none.book"
    expect_said "the list '$list'" 2 "leskofar: --first is a row of numbers from 0 to 4294967295 with commas between them, not $list"
done
for words in 'append node BOOK x 0 0:PARENT' 'append node BOOK 0 x 0:TERM' 'append node BOOK 0 0 x:TRACE' 'append constant BOOK x 0:NAME' \
    'append constant BOOK 0 x:TYPE' 'append term BOOK x:KIND' 'append term BOOK 1 x:FIELD' 'equate BOOK 0 x 0:CONSTANT' 'record BOOK 0 0 x:TYPE'; do
    # shellcheck disable=SC2086
    run ${words%:*} -o "$grown/none.book"
    expect_said "$words" 2 "leskofar: ${words#*:} is a number from 0 to 4294967295, not x"
done
[ ! -e "$grown/none.book" ] && passed=$((passed + 1)) || fail 'wrong usage' 'a book is written'

# Files. What is written takes its place whole: a link stays, permissions stay, and nothing is left beside.
cp "$base" "$grown/target.book"
chmod 640 "$grown/target.book"
ln -s target.book "$grown/link.book"
run append name "$base" abc -o "$grown/link.book"
expect_number 'a book behind a link' 0 "$grown/target.book"
[ -L "$grown/link.book" ] && [ "$(stat -c %a "$grown/target.book")" = 640 ] && passed=$((passed + 1)) || fail 'a book behind a link' 'other files'
cp "$base" "$grown/open.book"
exec 3<"$grown/open.book"
run append name "$grown/open.book" abc -o "$grown/open.book"
expect_number 'a book that is open' 0 "$grown/open.book"
cmp -s "$base" - <&3 && passed=$((passed + 1)) || fail 'a book that is open' 'its bytes have changed'
exec 3<&-
ln -s nowhere.book "$grown/dangling.book"
run new -o "$grown/dangling.book"
expect 'a link that leads nowhere' 2 'No such file or directory'
for to in /dev/full "$grown" "$grown/no/such/book" /no/such/book; do
    run append name "$base" abc -o "$to"
    expect "to $to" 2 "leskofar: $to: "
    [ ! -s "$out" ] && passed=$((passed + 1)) || fail "to $to" 'a number is printed'
done
run append name "$base" abc -o /dev/null
expect_said 'to a device' 0 0
# A disk that takes nothing more: what was there stays. The limit is the shell's too, so what is said goes through a pipe.
cp "$base" "$grown/kept.book"
for to in "$grown/kept.book" "$grown/none.book"; do
    # shellcheck disable=SC2086
    (
        ulimit -f 0
        timeout "$HANGS_AFTER" $HOST append name "$base" abc -o "$to" 2>&1
        echo "status $?"
    ) | cat >"$out"
    printf '%s\n' "leskofar: $to: File too large" 'status 2' | cmp -s - "$out" && cmp -s "$base" "$grown/kept.book" && [ ! -e "$grown/none.book" ] &&
        passed=$((passed + 1)) || fail "to $to beyond the limit" "$(cat "$out")"
done
[ -z "$(find "$grown" -name '*.new-*')" ] && passed=$((passed + 1)) || fail 'files' 'one is left beside'

# A byte changed anywhere: refused with the number and words of `check`, or grown into a good book.
book_of siblings
length=$(wc -c <"$work/siblings.book")
damaged=$grown/damaged.book
refusals=0
# So that the changes go all over the book.
STRIDE=7919
change=1
while [ "$change" -le "$GROWTH_CHANGES" ]; do
    cp "$work/siblings.book" "$damaged"
    printf "\\00$((change % 4))" | dd of="$damaged" bs=1 seek=$((change * STRIDE % length)) conv=notrunc 2>/dev/null
    run check "$damaged" --raw-names --raw-sorts
    complaint=$(grep 'refused' "$err")
    run append name "$damaged" abc -o "$grown/regrown.book"
    called="a book with byte $((change * STRIDE % length)) changed"
    if [ -n "$complaint" ]; then
        refusals=$((refusals + 1))
        expect_said "$called" 2 "$complaint"
    else
        expect "$called" 0
        run check "$grown/regrown.book" --raw-names --raw-sorts
        expect "$called, grown" 0 'a good book'
    fi
    change=$((change + 1))
done
echo "$GROWTH_CHANGES books with a byte changed: $refusals refused"
[ $((5 * refusals)) -ge "$GROWTH_CHANGES" ] && [ $((5 * refusals)) -le $((4 * GROWTH_CHANGES)) ] && passed=$((passed + 1)) ||
    fail 'books with a byte changed' 'too few or too many are refused'
