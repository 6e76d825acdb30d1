# Sourced by groups that need a book with a section that is too long: letters, of which a book has at most 8,192.
CONTENTS=80
LETTERS=8193
number() { printf "\\$(printf '%03o' $(($1 % 256)))\\$(printf '%03o' $(($1 / 256)))\\000\\000"; }
{
    number "$CONTENTS"
    number "$LETTERS"
    for _ in 1 2 3 4 5 6 7 8 9; do
        number $((CONTENTS + LETTERS))
        number 0
    done
    head -c "$LETTERS" /dev/zero
} >"$work/overfull.book"
