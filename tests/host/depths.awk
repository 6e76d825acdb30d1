# A plan of `depth` steps below each other, with what is to be said of it, all worked out from its text alone. Writes to `to`.plan the
# plan; to `to`.trace and `to`.listing what is printed of the last step and the goal there; and to `to`.script what one solver is sent
# for the goals in their order, without options, marks and models.
#
# The first step says p0. An even one says that a p brings about the next, and has a trace; the others say a q, which no goal needs. So
# the last p follows at the last step alone, by every even step.

function parent_of(step) { return step == 1 ? "root" : "s" (step - 1) }

# The constant that a step says, or the two that it joins.
function first_of(step) { return step == 1 ? "p0" : step % 2 == 0 ? "p" (step / 2 - 1) : "q" ((step - 1) / 2 % QS) }
function second_of(step) { return step % 2 == 0 ? "p" (step / 2) : "" }

function write_plan(    i, second) {
    for (i = 0; i <= last; i++) print "(constant p" i " Bool)" >plan
    for (i = 0; i < QS; i++) print "(constant q" i " Bool)" >plan
    for (i = 1; i <= depth; i++) {
        second = second_of(i)
        print "(node s" i " " parent_of(i) " " (second == "" ? first_of(i) ")" : "(=> " first_of(i) " " second ") :trace \"step " i "\")") >plan
        if (second != "") print "  step " i >(to ".trace")
    }
}

function write_listing(goal,    i, second) {
    print "----- Proof obligation:" >(to ".listing")
    for (i = 1; i <= depth; i++) {
        second = second_of(i)
        print "  " (second == "" ? first_of(i) : "=>(" first_of(i) ", " second ")") >(to ".listing")
    }
    print "  |-\n  " goal >(to ".listing")
}

function send(line) { print line >(to ".script") }

# A constant is declared at the first level that needs it, and gone with that level.
function declare(constant, level) {
    if (constant == "" || constant in level_of) return
    level_of[constant] = level
    send("(declare-fun " constant " () Bool)")
}

function forget_below(level,    constant) {
    for (constant in level_of) if (level_of[constant] > level) delete level_of[constant]
}

function send_step(step) {
    send("(push 1)")
    declare(first_of(step), step)
    declare(second_of(step), step)
    send("(assert " (second_of(step) == "" ? first_of(step) : "(=> " first_of(step) " " second_of(step) ")") ")")
}

function ask(step, goal) {
    print "(goal g" ++goals " s" step " " goal ")" >plan
    for (; here > step; here--) send("(pop 1)")
    forget_below(step)
    while (here < step) send_step(++here)
    send("(push 1)")
    declare(goal, step + 1)
    send("(push 1)\n(assert (not " goal "))\n(check-sat)\n(pop 1)\n(pop 1)")
    forget_below(step)
}

BEGIN {
    MOST_CONSTANTS = 256
    last = depth / 2
    QS = MOST_CONSTANTS - (last + 1)
    # Where a session of the narrow kind ends.
    narrow_end = 64
    plan = to ".plan"
    here = goals = 0
    write_plan()
    write_listing("p" last)
    ask(depth, "p" last)
    ask(depth - 1, "p" last)
    ask(narrow_end, "p" narrow_end / 2)
    ask(narrow_end, "p" (narrow_end / 2 + 1))
    ask(depth, "p" last)
}
