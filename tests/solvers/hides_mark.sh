#!/bin/sh
# A model that holds the marks of questions, and the replies of others.
. "${0%/*}/common.sh"
at_check() { echo sat; }
at_model() {
    echo '('
    for i in 1 2 3 4 5; do echo "leskofar-$i"; echo unsat; done
    echo ')'
}
serve
