# Commands, options, help, refusals and what is printed.

. tests/host/each_command.sh

book_of siblings
book=$work/siblings.book

run --help
expect 'help' 0 'usage: leskofar COMMAND'
[ "$(sed -n 's/^  \([a-z][a-z]*\) .*/\1/p' "$out" | tr '\n' ' ')" = "$commands " ] && passed=$((passed + 1)) ||
    fail 'help' 'other commands, or another order'
for command in $commands; do
    run "$command" --help
    expect "$command's help" 0 "usage: leskofar $command" 'Exit status'
    run "$command"
    expect "$command without arguments" 2 'usage: leskofar'
    run "$command" "$book" 1 2 3 4 5 --no-such-option
    expect "$command with a wrong option" 2 'there is no option --no-such-option'
    run "$command" /no/such/book 1 2
    expect "$command without its book" 2
done
run
expect 'no command' 2 'a command is missing'
run proof
expect 'a wrong command' 2 'there is no command proof'

run check "$book"
expect 'a good book' 0 'a good book'
head -c 79 "$book" >"$work/short.book"
refused_by_all 'a book cut short' "$work/short.book" \
    'refused 2: the book is under 80 bytes, or its table of contents is not as laid out'
head -c 2000000 /dev/zero >"$work/long.book"
run check "$work/long.book"
expect 'a file too long for a book' 2 'no book is longer'
run check "$work"
expect 'a directory' 2 'directory'

run print "$book" 34
expect 'print' 0
printf '%s\n' '(<= (+ (ite (< box_1 box_2) (- box_2 box_1) (- box_1 box_2)) (ite (< box_2 box_3) (- box_3 box_2) (- box_2 box_3))) 3)' >"$work/wanted"
cmp -s "$out" "$work/wanted" && passed=$((passed + 1)) || fail 'print' 'another text'
run print "$book" 2 --lines --indent 3
printf '(=\n     box_1\n     4)\n' >"$work/wanted"
cmp -s "$out" "$work/wanted" && passed=$((passed + 1)) || fail 'print with lines' "another text: $(cat "$out")"
run print "$book" --indent=3 --lines -- 2
cmp -s "$out" "$work/wanted" && passed=$((passed + 1)) || fail 'print with options before' "another text: $(cat "$out")"
book_of shades
for tag in 0 18446744073709551615; do
    run print "$work/shades.book" 3 --tag "$tag"
    printf '(= (tag_of |red:Shade|) %s)\n' "$tag" >"$work/wanted"
    cmp -s "$out" "$work/wanted" && passed=$((passed + 1)) || fail "print with tag $tag" "another text: $(cat "$out")"
done
run print "$book" 36
expect 'print of no term' 2 'refused 7: the node or term is not in the book'
run print "$book" 34 --lines --indent 18446744073709551615
expect 'print with the largest indent' 2 'refused 10'
for number in -1 '' x 1x 18446744073709551616 0x10; do
    run print "$book" 34 --indent "$number"
    expect "indent $number" 2 '--indent is a number'
done
run print "$book" 4294967296
expect 'a term over 32 bits' 2 'TERM is a number from 0 to 4294967295'
run print "$book" 34 --indent
expect 'an option without its value' 2 '--indent needs a value'
run print "$book" 34 --lines=yes
expect 'a flag with a value' 2 '--lines takes no value'

run trace "$book" 4
printf '  step 1: box 4\n  step 2: box 5\n  step 3, fancy pick: box 1\n' >"$work/wanted"
expect 'trace' 0
cmp -s "$out" "$work/wanted" && passed=$((passed + 1)) || fail 'trace' 'another text'
run trace "$book" 0
expect 'trace of the root' 0
[ ! -s "$out" ] && passed=$((passed + 1)) || fail 'trace of the root' 'not empty'
run trace "$book" 5
expect 'trace of no node' 2 'refused 7'

goal='<=(+((if <(box_1, box_2) -(box_2, box_1) else -(box_1, box_2)), (if <(box_2, box_3) -(box_3, box_2) else -(box_2, box_3))), 3)'
run listing "$book" 4 34
expect 'listing' 0
printf '%s\n' '----- Proof obligation:' '  =(box_1, 4)' '  =(box_2, 5)' '  =(box_3, 1)' '  |-' "  $goal" >"$work/wanted"
cmp -s "$out" "$work/wanted" && passed=$((passed + 1)) || fail 'listing' "another text: $(cat "$out")"
run listing "$book" 0 34
expect 'listing at the root' 0
printf '%s\n' '----- Proof obligation:' '  |-' "  $goal" >"$work/wanted"
cmp -s "$out" "$work/wanted" && passed=$((passed + 1)) || fail 'listing at the root' "another text: $(cat "$out")"
# A goal is any term: the last one, and one of a node.
for term in '35 false' '2 =(box_1, 4)'; do
    run listing "$book" 1 "${term%% *}"
    printf '%s\n' '----- Proof obligation:' '  =(box_1, 4)' '  |-' "  ${term#* }" >"$work/wanted"
    cmp -s "$out" "$work/wanted" && passed=$((passed + 1)) || fail "listing of $term" "another text: $(cat "$out")"
done
for pair in '5 34' '4294967295 34' '4 36' '4 4294967295'; do
    # The pair is meant to fall apart.
    # shellcheck disable=SC2086
    run listing "$book" $pair
    expect "listing of $pair" 2 'refused 7: the node or term is not in the book'
    [ ! -s "$out" ] && passed=$((passed + 1)) || fail "listing of $pair" 'something is printed'
done
run listing "$book" 4294967296 34
expect 'listing at a node over 32 bits' 2 'NODE is a number from 0 to 4294967295'
run listing "$book" 4 4294967296
expect 'listing of a term over 32 bits' 2 'TERM is a number from 0 to 4294967295'
for words in '4' '4 34 5'; do
    # shellcheck disable=SC2086
    run listing "$book" $words
    expect "listing of $words" 2 'usage: leskofar listing BOOK NODE TERM'
done
run listing /no/such/book 4 34
expect 'listing without its book' 2 '/no/such/book: No such file or directory'

run nodes "$book"
expect_said 'all nodes' 0 '4 nodes can be reached'
run nodes "$book" 4
expect_said 'one node' 0 '1 node can be reached'
run nodes "$book" 0
expect_said 'the root' 0 '1 node can be reached'
run nodes "$book" 4 1 4 0 1
expect_said 'nodes twice, and in any order' 0 '5 nodes can be reached'
run nodes -- "$book" 2 3
expect_said 'nodes behind a --' 0 '2 nodes can be reached'
# shellcheck disable=SC2046
run nodes "$book" $(seq 512 | sed 's/.*/3/')
expect_said 'as many nodes as may be named' 0 '512 nodes can be reached'

# A list that is refused: the book is not blamed.
# shellcheck disable=SC2046
run nodes "$book" $(seq 513 | sed 's/.*/3/')
expect_said 'more nodes than may be named' 2 "leskofar: $book: refused 3: 513 nodes are named, and at most 512 may be"
# shellcheck disable=SC2046
run nodes "$book" $(seq 1000 1599)
expect_said 'more nodes than may be named, all outside' 2 "leskofar: $book: refused 3: 600 nodes are named, and at most 512 may be"
outside() { # node position nodes...
    outside=$1
    position=$2
    shift 2
    run nodes "$book" "$@"
    expect_said "node $outside outside at position $position" 2 \
        "leskofar: $book: refused 7: node $outside, at position $position of the list (the first is 0), is not in the book, whose last node is 4"
}
outside 5 0 5
outside 5 1 3 5
outside 5 2 4 3 5 1
outside 4294967295 0 4294967295 5
# shellcheck disable=SC2046
outside 5 511 $(seq 511 | sed 's/.*/4/') 5
for word in '' x 1x 4294967296 18446744073709551616 0x1 ' 1'; do
    run nodes "$book" 1 "$word"
    expect_said "node '$word'" 2 "leskofar: NODE is a number from 0 to 4294967295, not $word"
done
run nodes "$book" -1
expect_said 'a negative node' 2 'leskofar: there is no option -1 here'
run nodes "$work/short.book"
expect 'all nodes of a book cut short' 2 'refused 2: the book is under 80 bytes'

printf '(constant x Int)\n(goal g root (= x x))\n' >"$work/bare.plan"
"$TOOLS/plan" book "$work/bare.plan" -o "$work/bare.book" || exit 1
run nodes "$work/bare.book"
expect_said 'a book without nodes' 0 'the book has no node but the root, which can always be reached'
run nodes "$work/bare.book" 0
expect_said 'its root' 0 '1 node can be reached'
run nodes "$work/bare.book" 1
expect_said 'a node that it has not' 2 \
    "leskofar: $work/bare.book: refused 7: node 1, at position 0 of the list (the first is 0), is not in the book, whose last node is 0"
# As many nodes as a book has: below each other as deep as they may be, and then from the root again.
{
    echo '(constant p Bool)'
    seq 512 | awk '{ print "(node n" $1 " " ($1 % 400 == 1 ? "root" : "n" $1 - 1) " p)" }'
} >"$work/full.plan"
"$TOOLS/plan" book "$work/full.plan" -o "$work/full.book" || exit 1
run nodes "$work/full.book"
expect_said 'all nodes of a full book' 0 '512 nodes can be reached'
# A section that is too long is the book's fault, whatever list comes with it.
. tests/host/overfull.sh
for list in '' 1 "$(seq 513)"; do
    # shellcheck disable=SC2086
    run nodes "$work/overfull.book" $list
    expect_said 'nodes of a book with too many letters' 2 "leskofar: $work/overfull.book: refused 3: a section of the book has more records than it may"
done

run prove "$book" 3
expect 'a node without a term' 2 'usage: leskofar prove'
run prove "$book" 3 34 4
expect 'a pair cut short' 2 'usage: leskofar prove'
run prove "$book" 3 34 --timeout 0
expect 'no time at all' 2 '--timeout is a number from 1'
run prove "$book" 3 34 --log /no/such/file
expect 'a log that cannot be written' 2 '/no/such/file'
run prove "$book" 3 34 --log /dev/full
expect 'a log on a full disk' 2 '/dev/full cannot be written'
echo 'append name x' >"$work/name.lines"
for words in "print $book 34" "listing $book 4 34" "nodes $book" "append name $book x -o $work/grown.book" "work $book"; do
    # shellcheck disable=SC2086
    timeout "$HANGS_AFTER" $HOST $words >/dev/full 2>"$err" <"$work/name.lines"
    status=$?
    : >"$out"
    expect "a full standard output for $words" 2 'standard output cannot be written'
done
# Who cannot read the listing gets no answer either.
timeout "$HANGS_AFTER" $HOST prove "$book" 3 34 --show-proof-obligations --log "$work/unread.log" >/dev/full 2>"$err"
status=$?
expect 'a full standard output for listings' 2 'standard output cannot be written'
expect_solvers 'a full standard output for listings' "$work/unread.log" 0
timeout "$HANGS_AFTER" $HOST prove "$book" 3 34 >&- 2>"$err" <&-
status=$?
expect 'closed standard streams' 2 'standard output cannot be written'

# A refused question is told, and the others are asked by the same session.
run prove "$book" 3 34 9 34 3 99 4 34
expect 'refused questions among others' 2 'node 9, term 34: refused 7' 'node 3, term 99: refused 7'
expect_results 'refused questions among others' 'Proved refused refused Unproved'

# Such a question has no listing, and the others have theirs.
run prove "$book" 3 34 9 34 3 99 4 34 --show-proof-obligations
expect 'refused questions among listings' 2 'node 9, term 34: refused 7' 'node 3, term 99: refused 7'
sed -n 's/^\(----- .*\)$/\1/p; s/^\(node [0-9]*, term [0-9]*\): .*/\1/p' "$out" >"$work/order"
printf '%s\n' '----- Proof obligation:' 'node 3, term 34' 'node 9, term 34' 'node 3, term 99' '----- Proof obligation:' 'node 4, term 34' >"$work/wanted"
cmp -s "$work/order" "$work/wanted" && passed=$((passed + 1)) || fail 'refused questions among listings' "$(cat "$work/order")"
[ ! -s "$err" ] && passed=$((passed + 1)) || fail 'refused questions among listings' 'a complaint beside the results'

# Colours and the count are for a terminal alone.
expect_not 'no colours in a file' "$(printf '\033')"
if command -v script >/dev/null 2>&1; then
    script -qec "$HOST prove $book 3 34 4 34" /dev/null >"$out" 2>"$err" </dev/null
    status=$?
    expect 'on a terminal' 1 "$(printf '\033[32mProved')" "$(printf '\033[33mUnproved')" '0 of 2 done' '1 of 2 done'
    # The count does not stand in the way of a listing.
    script -qec "$HOST prove $book 3 34 4 34 --show-proof-obligations" /dev/null 2>"$err" </dev/null | tr -d '\r' >"$out"
    [ "$(grep -cx -- '----- Proof obligation:' "$out")" -eq 2 ] && passed=$((passed + 1)) || fail 'listings on a terminal' "$(cat -v "$out")"
    NO_COLOR=1 script -qec "$HOST prove $book 3 34" /dev/null >"$out" 2>"$err" </dev/null
    expect_not 'no colours where they are not wanted' "$(printf '\033[32m')"
else
    fail 'on a terminal' 'the command script is missing'
fi
