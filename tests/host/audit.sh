# Scripts of other writers: what `leskofar audit` says of our own, of ones that are changed, and of what it does not take.

audits=$work/audits
mkdir -p "$audits"
script=$audits/script
changed=$audits/changed

# The script of what a session sends for questions.
send() { # book pairs solver
    # The pairs are meant to fall apart.
    # shellcheck disable=SC2086
    run prove "$1" $2 --solver "tests/solvers/$3.sh" --log "$audits/log"
    script_of "$audits/log" >"$script"
}

audit() { # arguments...
    run audit "$book" "$script" "$@"
}

# Our own scripts, by three kinds of answers: without models, with them, and with none to be had.
for sample in siblings limit_proved limit_not_proved distance_axiom patterns zero_point; do
    book_of "$sample"
    book=$work/$sample.book
    for solver in proves_all denies_all unknown; do
        send "$book" "$pairs" "$solver"
        # shellcheck disable=SC2086
        audit $pairs
        expect_said "our own script of $sample with $solver" 0 'accepted'
        audit --questions "$work/$sample.goals"
        expect_said "our own script of $sample with $solver, and its goals" 0 'accepted'
    done
done

book_of siblings
book=$work/siblings.book
goals=$work/siblings.goals
send "$book" "$pairs" denies_all

# Each line left out, doubled, changed, and put behind the next: judged apart, by the script that it was.
judge() { # name
    awk -v questions="$pairs" -v script="$changed" -f tests/host/audit.awk "$script" "$changed" >"$audits/judged" || exit 1
    # shellcheck disable=SC2086
    run audit "$book" "$changed" $pairs
    expect_said "$1" "$(cut -f 1 "$audits/judged")" "$(cut -f 2 "$audits/judged")"
    cut -f 2 "$audits/judged" | sed 's/.*\(refused [0-9]*\).*/\1/; s/ at line.*//' >>"$audits/judgements"
}
: >"$audits/judgements"
line=1
while [ "$line" -le "$(wc -l <"$script")" ]; do
    sed "${line}d" "$script" >"$changed"
    judge "a script without line $line"
    sed "${line}p" "$script" >"$changed"
    judge "a script with line $line twice"
    sed "${line}s/[a-z]/;/" "$script" >"$changed"
    judge "a script with line $line spoilt"
    sed "${line}{h;d;};$((line + 1))G" "$script" >"$changed"
    judge "a script with line $line behind the next"
    line=$((line + AUDIT_STEP))
done
for judgement in accepted 'rejected: check-sat 1' 'rejected: check-sat 2' 'rejected: check-sat 3' 'refused 26' 'refused 27'; do
    grep -qx "$judgement" "$audits/judgements" && passed=$((passed + 1)) || fail 'changed scripts' "none is $judgement"
done

# Other questions than the script asks, in another order, one more and one less.
first_check=$(grep -nx '(check-sat)' "$script" | sed -n '1s/:.*//p')
audit 4 34 3 34 3 34
expect_said 'questions swapped' 1 "rejected: check-sat 1 at line $first_check, node 4, term 34"
second_check=$(grep -nx '(check-sat)' "$script" | sed -n '2s/:.*//p')
audit 3 34 4 33 3 34
expect_said 'another term' 1 "rejected: check-sat 2 at line $second_check, node 4, term 33"
audit 3 34 4 34
expect_said 'a question less' 2 "leskofar: $script: refused 27: the check-sats are 3, and the questions 2"
audit 3 34 4 34 3 34 3 34
expect_said 'a question more' 2 "leskofar: $script: refused 27: the check-sats are 3, and the questions 4"
audit -- 3 34 4 34 3 34
expect_said 'questions behind a --' 0 'accepted'

# What is not taken: the number, and what it is that it was met at.
OUTSIDE='the node or term is not in the book'
audit 3 34 9 34 3 99
expect_said 'a node outside' 2 "leskofar: $book: refused 7: question 2, node 9, term 34: $OUTSIDE"
audit 3 34 4 34 3 99
expect_said 'a term outside' 2 "leskofar: $book: refused 7: question 3, node 3, term 99: $OUTSIDE"
# The first that is outside, behind the last that is not. A long list is looked through without asks.
terms=$(count_of "$book" "$TERMS")
nodes=$(count_of "$book" "$CONTEXTS")
audit "$nodes" $((terms - 1)) $((nodes + 1)) 0
expect_said 'the first node outside' 2 "leskofar: $book: refused 7: question 2, node $((nodes + 1)), term 0: $OUTSIDE"
audit "$nodes" $((terms - 1)) 0 "$terms"
expect_said 'the first term outside' 2 "leskofar: $book: refused 7: question 2, node 0, term $terms: $OUTSIDE"
MANY=1000000
{ yes '3 34' | head -n "$MANY" && echo '9 34'; } >"$audits/some.goals"
audit --questions "$audits/some.goals"
expect_said 'a node outside behind many questions' 2 "leskofar: $book: refused 7: question $((MANY + 1)), node 9, term 34: $OUTSIDE"
run audit "$book" "$audits/log" 3 34 4 34 3 34
expect_said 'a log' 2 "leskofar: $audits/log: refused 26: line 1 is no command of ours"
refused_at() { # name line why text
    # The text has escapes.
    # shellcheck disable=SC2059
    printf "$4" >"$changed"
    run audit "$book" "$changed" 3 34
    expect_said "$1" 2 "leskofar: $changed: refused 26: line $2 $3"
}
refused_at 'a rest' 2 'has no line end' '(push 1)\n(check-sat)'
refused_at 'a rest behind no command' 1 'is no command of ours' 'x\ny'
refused_at 'an empty line' 1 'is no command of ours' '\n'
refused_at 'a line of two commands' 2 'is no command of ours' '(push 1)\n(push 1)(push 1)\n'
refused_at 'a zero byte' 1 'is no command of ours' '(assert \000)\n'
refused_at 'a byte that is no letter' 2 'is no command of ours' '(push 1)\n(assert |\303\244|)\n'
refused_at 'a comment behind a line' 3 'is no command of ours' '(push 1)\n(pop 1)\n(assert x);\n'
refused_at 'a bar left open' 2 'is no command of ours' '(assert |;|)\n(assert |x)\n'
refused_at 'a parenthesis that closes too early' 1 'is no command of ours' '(assert x) y)\n'
refused_at 'a pop too many' 5 'pops the first level' '(push 1)\n(push 1)\n(pop 1)\n(pop 1)\n(pop 1)\nx\n'
refused_at 'a pop alone' 1 'pops the first level' '(pop 1)\n'
book_of shades
run audit "$work/shades.book" "$script" 0 0
expect_said 'a %tag literal' 2 "leskofar: $work/shades.book: refused 25: term 2 is a %tag literal"
printf '%s\n' '(function g () Bool :explained-by (rule))' '(axiom rule :explains (g))' '(node n root g)' '(goal good root true)' \
    '(goal lost_goal root g)' '(goal lost_node n true)' >"$audits/lost.plan"
"$TOOLS/plan" book "$audits/lost.plan" -o "$audits/lost.book" --goals >"$audits/lost.goals" || exit 1
lost() { # which of the goals is asked behind the first
    { sed -n 1p "$audits/lost.goals" && sed -n "$1p" "$audits/lost.goals"; } >"$audits/some.goals"
    run audit "$audits/lost.book" "$script" --questions "$audits/some.goals"
    expect_said "question $1 that is lost" 2 "leskofar: $audits/lost.book: refused 9: question 2, $(sed -n "$1s/^\([0-9]*\) \([0-9]*\) .*/node \1, term \2/p" "$audits/lost.goals"): a function that is needed there is explained by an axiom without a term"
}
lost 2
lost 3

# The script's length, and whose fault a 3 is. What does not end is not read to its end.
fill() { # bytes
    rest=$(($1 - $(wc -c <"$script") - $(printf '(assert )\n' | wc -c)))
    { cat "$script" && printf '(assert ' && head -c "$rest" /dev/zero | tr '\000' x && printf ')\n'; } >"$changed"
    [ "$(wc -c <"$changed")" -eq "$1" ] && passed=$((passed + 1)) || fail "a script of $1 bytes" 'has another length'
}
TOO_LONG='refused 3: the script is longer than 65536 bytes'
fill 65536
run audit "$book" "$changed" 3 34 4 34 3 34
expect_said 'a script of 65,536 bytes' 0 'accepted'
run_on "$changed" audit "$book" - 3 34 4 34 3 34
expect_said 'a script of 65,536 bytes on standard input' 0 'accepted'
fill 65537
run audit "$book" "$changed" 3 34 4 34 3 34
expect_said 'a script of 65,537 bytes' 2 "leskofar: $changed: $TOO_LONG"
run audit "$book" /dev/zero 3 34
expect_said 'a script without an end' 2 "leskofar: /dev/zero: $TOO_LONG"
. tests/host/overfull.sh
run audit "$work/overfull.book" "$script" 0 0
expect_said 'a book with too many letters' 2 "leskofar: $work/overfull.book: refused 3: a section of the book has more records than it may"
# The first constant's type: the place of the constants is the fourth of the table of contents.
constants=$(od -An -v -tu4 -w8 -N80 "$book" | sed -n '4s/^ *\([0-9]*\) .*/\1/p')
cp "$book" "$audits/damaged.book"
printf '\377' | dd of="$audits/damaged.book" bs=1 seek=$((constants + 4)) conv=notrunc 2>/dev/null
run audit "$audits/damaged.book" "$changed" 3 34
expect_said 'a damaged book and a long script' 2 "leskofar: $changed: $TOO_LONG"
run audit "$audits/damaged.book" "$script" 3 34
expect 'a damaged book' 2 "leskofar: $audits/damaged.book: refused 4: "
head -c 79 "$book" >"$audits/short.book"
run audit "$audits/short.book" "$changed" 9 9
expect 'a book cut short and a long script' 2 "leskofar: $audits/short.book: refused 2: "

# Standard input in place of each of the three files.
run_on "$book" audit - "$script" 3 34 4 34 3 34
expect_said 'the book on standard input' 0 'accepted'
run_on "$script" audit "$book" - --questions "$goals"
expect_said 'the script on standard input' 0 'accepted'
run_on "$goals" audit "$book" "$script" --questions -
expect_said 'the questions on standard input' 0 'accepted'
run_on "$goals" audit --questions=- "$book" "$script"
expect_said 'the questions on standard input, said otherwise' 0 'accepted'
run_on "$script" audit - "$script" 3 34
expect 'no book on standard input' 2 'leskofar: standard input: refused 2: '
run_on "$audits/log" audit "$book" - 3 34
expect_said 'a log on standard input' 2 'leskofar: standard input: refused 26: line 1 is no command of ours'
run_on /dev/zero audit - "$script" 3 34
expect_said 'a book without an end' 2 'leskofar: standard input: no book is longer than 1048576 bytes'
for words in '- - 3 34' "- $script --questions -" "$book - --questions -" '- - --questions -'; do
    # shellcheck disable=SC2086
    run_on "$script" audit $words
    expect_said "audit $words" 2 'leskofar: only one of BOOK, SCRIPT and FILE can be standard input'
done
# The host's words are meant to fall apart.
# shellcheck disable=SC2086
timeout "$HANGS_AFTER" $HOST audit "$book" - 3 34 >"$out" 2>"$err" <&-
status=$?
expect 'closed standard input' 2 'leskofar: standard input: '
# shellcheck disable=SC2086
timeout "$HANGS_AFTER" $HOST audit "$book" "$script" 3 34 4 34 3 34 >/dev/full 2>"$err" </dev/null
status=$?
: >"$out"
expect 'a full standard output for an audit' 2 'standard output cannot be written'

# Lists of questions. Names are not looked at, and an empty list asks nothing.
printf '3 34\n4 34 \n3 34 |a name|; "x 1 2\n' >"$audits/some.goals"
audit --questions "$audits/some.goals"
expect_said 'questions without names, and with odd ones' 0 'accepted'
: >"$audits/none"
audit --questions "$audits/none"
expect_said 'no questions' 2 "leskofar: $script: refused 27: the check-sats are 3, and the questions 0"
run audit "$book" "$audits/none" --questions "$audits/none"
expect_said 'neither questions nor a script' 0 'accepted'
run audit "$book" "$audits/none" 3 34
expect_said 'no script' 2 "leskofar: $audits/none: refused 27: the check-sats are 0, and the questions 1"
for text in '' ' ' x 3 '3 ' '3 x' '3 34x' '3  34' ' 3 34' '3	34' '-3 34' '3 4294967296' '4294967296 3' '3 18446744073709551616' '; 3 34'; do
    printf '3 34 good\n%s\n' "$text" >"$audits/some.goals"
    audit --questions "$audits/some.goals"
    expect_said "the line '$text'" 2 "leskofar: $audits/some.goals: line 2 is no question: NODE TERM NAME, numbers from 0 to 4294967295"
done
printf '3 34 a\n4 34 b\n3 34' >"$audits/some.goals"
audit --questions "$audits/some.goals"
expect_said 'a question without its line end' 2 "leskofar: $audits/some.goals: line 3 has no line end"
audit --questions /dev/zero
expect_said 'questions without an end' 2 'leskofar: /dev/zero: no list of questions is longer than 16777216 bytes'

# Wrong usage, and files that cannot be read.
USAGE='leskofar: usage: leskofar audit BOOK SCRIPT NODE TERM [NODE TERM ..], or leskofar audit BOOK SCRIPT --questions FILE'
for words in '' "$book" "$book $script" "$book $script 3" "$book $script 3 34 4" "$book --questions $goals" "$book $script 3 34 --questions $goals" \
    "$book $script 3 --questions $goals"; do
    # shellcheck disable=SC2086
    run audit $words
    expect_said "audit $words" 2 "$USAGE"
done
audit 3 x
expect_said 'a term that is no number' 2 'leskofar: TERM is a number from 0 to 4294967295, not x'
audit 4294967296 0
expect_said 'a node over 32 bits' 2 'leskofar: NODE is a number from 0 to 4294967295, not 4294967296'
audit --questions
expect_said 'no file of questions' 2 'leskofar: --questions needs a value'
run audit /no/such/book "$script" 3 34
expect_said 'no book' 2 'leskofar: /no/such/book: No such file or directory'
run audit "$book" /no/such/script 3 34
expect_said 'no script' 2 'leskofar: /no/such/script: No such file or directory'
audit --questions /no/such/list
expect_said 'no list of questions' 2 'leskofar: /no/such/list: No such file or directory'
run audit "$book" "$work" 3 34
expect_said 'a directory as a script' 2 "leskofar: $work: Is a directory"
