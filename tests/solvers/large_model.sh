#!/bin/sh
# A model of many megabytes with strings, bars and comments in it, none of which closes it.
. "${0%/*}/common.sh"
at_check() { echo sat; }
at_model() {
    printf '%s\n' '((define-fun |a)b(| () String "x"") (" ) ; a comment ) " |'
    printf '%s\n' '(define-fun y () String "\")'
    head -c "$LARGE" /dev/zero | tr '\0' 'a'
    echo ')'
}
serve
