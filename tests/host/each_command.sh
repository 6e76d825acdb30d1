# Sourced by groups that try every command.

commands='check print trace listing nodes audit prove new append extend equate record point work'

# A bad book: every command that takes one refuses it, and writes none.
refused_by_all() { # name book words
    rm -f "$work/grown.book"
    for command in $commands; do
        case $command in
            new) continue ;;
            check | work) run "$command" "$2" ;;
            audit) run audit "$2" /dev/null 1 1 ;;
            listing | prove) run "$command" "$2" 1 1 ;;
            append) run append name "$2" x -o "$work/grown.book" ;;
            equate | record) run "$command" "$2" 0 0 0 -o "$work/grown.book" ;;
            extend | point) run "$command" "$2" 0 0 -o "$work/grown.book" ;;
            *) run "$command" "$2" 1 ;;
        esac
        expect_said "$command refuses $1" 2 "leskofar: $2: $3"
    done
    [ ! -e "$work/grown.book" ] && passed=$((passed + 1)) || fail "$1" 'a book is written'
}
