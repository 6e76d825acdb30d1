# Books that are refused 28, since a name in them cannot go to a solver: in each way, by every command, and as a book would become.

. tests/host/each_command.sh

meaning='a type, constant or function has an empty name or one with a bar or backslash inside, or a literal has a bar or backslash in its text or type'

# A good book, as a plan has it, in which letters that no other name has are changed for as many others.
HOLDER=ZZZZ
CONTENTS=80
spoiled=$work/spoiled.book
spoil() { # plan letters
    held=$(printf '%s' "$HOLDER" | cut -c "1-${#2}")
    printf '%s\n' "$1" | sed "s/$HOLDER/$held/g" >"$work/spoiled.plan"
    "$TOOLS/plan" book "$work/spoiled.plan" -o "$spoiled" || exit 1
    place=$(tail -c +$((CONTENTS + 1)) "$spoiled" | grep -obUa -- "$held" | head -n 1 | cut -d : -f 1)
    printf '%s' "$2" | dd of="$spoiled" bs=1 seek=$((CONTENTS + place)) conv=notrunc 2>/dev/null
}

# What a name is given to, where nobody uses it, where a node does, in the text of a literal and as its type.
spoil_as() { # role letters
    case $1 in
        type) spoil "(type $HOLDER)" "$2" ;;
        constant) spoil "(constant $HOLDER Int)" "$2" ;;
        function) spoil "(function $HOLDER (Int) Int)" "$2" ;;
        used) spoil "(constant $HOLDER Int) (node n root (= $HOLDER 7))" "$2" ;;
        text) spoil "(term t (literal \"$HOLDER\" Int))" "$2" ;;
        type_of) spoil "(type $HOLDER) (term t (literal \"x\" $HOLDER))" "$2" ;;
        beside_tag) spoil "(type $HOLDER) (term t (= 1 %tag))" "$2" ;;
    esac
}

expect_28() { # name
    run check "$spoiled" --raw-names --raw-sorts
    expect_said "$1" 2 "leskofar: $spoiled: refused 28: $meaning"
}
expect_good() { # name
    run check "$spoiled"
    expect_said "$1" 0 "$spoiled: a good book"
}

for letters in '|' '\' '|a' 'a|' 'a|b' 'a\b' '|||' '|\|' '\\'; do
    for role in type constant function used text type_of; do
        spoil_as "$role" "$letters"
        expect_28 "$role $letters"
    done
done
for letters in '||' '|a|' '| |'; do
    for role in type constant function used beside_tag; do
        spoil_as "$role" "$letters"
        expect_good "$role $letters"
    done
    for role in text type_of; do
        spoil_as "$role" "$letters"
        expect_28 "$role $letters"
    done
done

# A name without letters: the first one, whose length stands behind the contents, one letter and the name's start.
LENGTH_AT=$((CONTENTS + 1 + 4))
run new -o "$work/spoiled.base"
run append name "$work/spoiled.base" x -o "$spoiled"
run append constant "$spoiled" 0 1 -o "$spoiled"
expect_good 'a constant with a letter'
printf '\000' | dd of="$spoiled" bs=1 seek="$LENGTH_AT" conv=notrunc 2>/dev/null
expect_28 'a constant without letters'
refused_by_all 'a constant without letters' "$spoiled" "refused 28: $meaning"

# What would become such a book is refused, and nothing is written.
refused_growth() { # name words...
    called=$1
    shift
    cp "$grown" "$work/before.book"
    run "$@" -o "$grown"
    expect_said "$called" 2 "leskofar: $grown: refused 28, as the book would become: $meaning"
    cmp -s "$grown" "$work/before.book" && passed=$((passed + 1)) || fail "$called" 'it is written'
}
grown=$work/grown28.book
printf '%s\n' '(type T :name "|red 40|") (term t true)' >"$work/barred.plan"
"$TOOLS/plan" book "$work/barred.plan" -o "$grown" || exit 1
names=$(count_of "$grown" "$NAMES")
for text in '' 'a|b' red; do
    run append name "$grown" "$text" -o "$grown"
    expect "the name '$text' alone" 0
done
refused_growth 'a constant without letters' append constant "$grown" "$names" 1
refused_growth 'a constant with a bar' append constant "$grown" $((names + 1)) 1
refused_growth 'a literal with a bar' append term "$grown" 2 $((names + 1)) 1
refused_growth 'a literal of a type with bars' append term "$grown" 2 $((names + 2)) 2
run append constant "$grown" $((names + 2)) 2 -o "$grown"
expect_said 'a constant of a type with bars' 0 0

# A line of `work` that is refused so says it, and the next is read.
printf 'append constant %s 1\nappend constant %s 1\nask 0 0\n' "$names" $((names + 2)) >"$work/refused.lines"
run_on "$work/refused.lines" work "$grown" --solver tests/solvers/proves_all.sh --raw-names
expect 'a line that is refused 28' 2 "refused 28, as the book would become: $meaning" 'node 0, term 0: Proved'
