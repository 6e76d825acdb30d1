# Makes, at random by `seed`, lines for `leskofar work` with `count` nodes and a question behind each, and a plan that says the same
# at once. Writes them to `to`.lines and `to`.plan, and to `to`.told what the lines are answered, of a question only which it is.
#
# The book to begin with has `constants` constants, `names` names and `terms` terms, and no node. Where `has_base` is not 0 it has the name
# =, and as function 0 f, from Int to Int. What its own plan says is not repeated.

# A whole number from 0 up to, and without, a number.
function any(below) { return int(rand() * below) }

function told(text) { print text >(to ".told") }

# A line that appends, and the number that it is answered.
function say(line, number) {
    print line >(to ".lines")
    told(number)
    return number
}

# The number of a text's name, by a line of its own where the text is new.
function name_of(text) {
    if (!(text in name)) name[text] = say("append name \"" text "\"", names++)
    return name[text]
}

# A name that a line needs which hangs a node: one that is there counts for nothing.
function need_name(text) {
    if (!(text in name) && !(text in is_known)) name[text] = names++
}

function term(words, text) {
    text_of[terms] = text
    return say("append term " words, terms++)
}

function applied(operator, a, b) {
    return term("4 " name_of(operator) " --first " a "," b, "(" operator " " text_of[a] " " text_of[b] ")")
}

function integer(    value) {
    value = any(41) - 20
    if (value < 0) return term("1 " sprintf("%.0f", 4294967296 + value) " 4294967295", value)
    return term("1 " value, value)
}

function any_constant(    which) {
    which = any(constant_count)
    return term("3 " constant_at[which], constant_called[which])
}

function number_term(depth,    kind, a, b, c) {
    kind = depth == 0 ? any(2) : any(has_base ? 7 : 6)
    if (kind == 0) return integer()
    if (kind <= 2) return any_constant()
    a = number_term(depth - 1)
    if (kind == 6) return term("5 0 --first " a, "(f " text_of[a] ")")
    b = number_term(depth - 1)
    if (kind == 3) return applied("+", a, b)
    if (kind == 4) return applied("-", a, b)
    c = truth_term(depth - 1)
    return term("6 " c " " a " " b, "(ite " text_of[c] " " text_of[a] " " text_of[b] ")")
}

function truth_term(depth,    kind, a, b) {
    kind = depth == 0 ? any(3) : any(8)
    if (kind == 0) { a = any(2); return term("0 " a, a ? "true" : "false") }
    if (kind >= 6) { a = truth_term(depth - 1); b = truth_term(depth - 1); return applied(kind == 6 ? "and" : "or", a, b) }
    if (kind == 5) { a = truth_term(depth - 1); return term("4 " name_of("not") " --first " a, "(not " text_of[a] ")") }
    a = number_term(depth > 0 ? depth - 1 : 0)
    b = number_term(depth > 0 ? depth - 1 : 0)
    return applied(kind == 1 ? "<" : kind == 2 ? "<=" : "=", a, b)
}

function add_constant(called) {
    print "(constant " called " Int)" >(to ".plan")
    constant_called[constant_count] = called
    constant_at[constant_count++] = constants
    return constants++
}

function plan_node(parent, text, trace) {
    nodes++
    depth_of[nodes] = depth_of[parent] + 1
    print "(node n" nodes " " (parent ? "n" parent : "root") " " text (trace == "" ? "" : " :trace \"" trace "\"") ")" >(to ".plan")
    return nodes
}

# A line that hangs a node below a parent.
function say_node(line, parent, text, trace) { say(line, plan_node(parent, text, trace)) }

# Two constants of one depth would have one name, and no solver is asked with such a book.
function record_node(parent, is_point,    t, probe, trace, constant) {
    probe = "probe%" depth_of[parent]
    trace = is_point || any(2) ? "point " nodes : ""
    t = is_point ? terms++ : number_term(2)
    if (is_point) text_of[t] = "true"
    need_name(probe)
    need_name("=")
    if (trace != "") need_name(trace)
    print "(constant " probe " " (is_point ? "Bool" : "Int") ")" >(to ".plan")
    constant = constants++
    if (!is_point) { constant_called[constant_count] = probe; constant_at[constant_count++] = constant }
    terms += 2
    is_recorded[depth_of[parent]] = 1
    say_node(is_point ? "point " parent " \"" trace "\"" : "record " parent " " t " 1" (trace == "" ? "" : " \"" trace "\""), parent, \
        "(= " probe " " text_of[t] ")", trace == "" ? probe : trace)
}

function equal_node(parent,    which, t) {
    which = any(constant_count)
    t = number_term(2)
    need_name("=")
    terms += 2
    say_node("equate " parent " " constant_at[which] " " t, parent, "(= " constant_called[which] " " text_of[t] ")", "")
}

function plain_node(parent, is_named,    t, trace) {
    t = truth_term(2)
    trace = any(2) ? "step " any(5) : ""
    if (is_named) {
        say_node("append node " parent " " t " " (trace == "" ? 0 : name_of(trace) + 1), parent, text_of[t], trace)
        return
    }
    if (trace != "") need_name(trace)
    say_node("extend " parent " " t (trace == "" ? "" : " \"" trace "\""), parent, text_of[t], trace)
}

function any_node(    parent, kind) {
    parent = any(nodes + 1)
    kind = any(6)
    if (kind >= 4 && !is_recorded[depth_of[parent]]) record_node(parent, kind == 5)
    else if (kind == 3) equal_node(parent)
    else plain_node(parent, kind == 2)
}

function question(    node, t) {
    node = any(4) ? nodes : any(nodes + 1)
    t = truth_term(2)
    print "ask " node " " t >(to ".lines")
    told("node " node ", term " t)
    print "(goal g" ++goals " " (node ? "n" node : "root") " " text_of[t] ")" >(to ".plan")
}

BEGIN {
    srand(seed)
    constant_count = nodes = goals = 0
    depth_of[0] = 0
    if (has_base) is_known["="] = 1
    printf "" >(to ".plan")
    for (i = 0; i < 3; i++) say("append constant " name_of("c" i) " 1", add_constant("c" i))
    while (nodes < count) { any_node(); question() }
}
