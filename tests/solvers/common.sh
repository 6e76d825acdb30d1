# A solver in a few lines, for the ones beside it that fail: each changes what is done at a check, a model, the echo behind one of them,
# any other echo (a fence) or any other line.
# Its process number goes into a file, so that the tests can see that nobody is left behind.
echo $$ >>"$SOLVER_PIDS"

at_check() { echo unsat; }
at_model() { echo '((define-fun x () Int 1))'; }
at_echo() { echo "$1"; }
at_fence() { echo "$1"; }
at_other() { :; }

# Somebody whom the solver has started, and who must end with it.
start_helper() {
    sleep 1000 &
    echo $! >>"$SOLVER_PIDS"
}

serve() {
    is_asked=no
    while IFS= read -r line; do
        case $line in
            '(check-sat)')
                is_asked=yes
                at_check ;;
            '(get-model)')
                is_asked=yes
                at_model ;;
            '(echo "'*'")')
                mark=${line#??????'"'}
                mark=${mark%'")'}
                if [ "$is_asked" = yes ]; then is_asked=no && at_echo "$mark"; else at_fence "$mark"; fi ;;
            *) at_other "$line" ;;
        esac
    done
}
