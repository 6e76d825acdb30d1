#!/bin/sh
# An error for a pop, which comes with the next question.
. "${0%/*}/common.sh"
at_other() {
    case $1 in
        '(pop 1)') echo '(error "no level")' ;;
    esac
}
serve
