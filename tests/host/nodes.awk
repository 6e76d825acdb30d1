# Makes a plan of `count` nodes with axioms that have no term, and `lists` lists of nodes, at random by `seed`, and works out which nodes
# can be reached from the plan alone. Writes the plan to `to`.plan, a word for each node to `to`.truth, and to `to`.lists a line for each
# list: the status, what is said of it with \n for line ends, and the nodes. `book` is what the host will call the book.

# A whole number from 0 up to, and without, a number.
function any(below) { return int(rand() * below) }

# The functions whose axioms matter. To declare `lost` or `idle` meets an axiom without a term at once, although that of `idle` would
# never be sent; `linked` meets it in its own axiom. The axiom of `waiting` is looked at when `waiting` is declared, and is sent only
# where `plain` is declared already.
function write_functions() {
    print "(constant x Int)" >plan
    print "(function plain (Int) Int)" >plan
    print "(function unused (Int) Int)" >plan
    print "(function sound (Int) Int :explained-by (known))" >plan
    print "(axiom known (= (sound 1) 1) :explains (sound))" >plan
    print "(function lost (Int) Int :explained-by (missing))" >plan
    print "(axiom missing :explains (lost))" >plan
    print "(function idle (Int) Int :explained-by (never))" >plan
    print "(axiom never :explains (idle unused))" >plan
    print "(function linked (Int) Int :explained-by (link))" >plan
    print "(axiom link (= (linked 1) (lost 1)) :explains (linked))" >plan
    print "(function waiting (Int) Int :explained-by (waits))" >plan
    print "(axiom waits (= (waiting 1) (lost 1)) :explains (waiting plain))" >plan
}

# Most nodes apply no function that fails, so that lists come to an end.
function applied_at_random(    kind) {
    kind = any(40)
    if (kind == 0) return "lost"
    if (kind == 1) return "idle"
    if (kind == 2) return "linked"
    if (kind < 7) return "waiting"
    if (kind < 12) return "plain"
    if (kind < 16) return "sound"
    return ""
}

# Mostly one that can be reached itself, and often the last one.
function parent_at_random(node,    parent) {
    do parent = any(3) == 0 ? any(node) : node - 1; while (fails[parent] && any(5) > 0 && node > 2)
    return parent
}

# Whether a node fails, by its parent's state and what it applies; the state is what is declared on the way to it.
function add_node(node,    parent, applied, fails_here) {
    parent = parent_at_random(node)
    applied = applied_at_random()
    fails_here = applied ~ /^(lost|idle|linked)$/ || (applied == "waiting" && !has_waiting[parent] && has_plain[parent])
    fails[node] = fails[parent] || fails_here
    has_plain[node] = has_plain[parent] || applied == "plain"
    has_waiting[node] = has_waiting[parent] || applied == "waiting"
    # Every third has no trace.
    trace[node] = trace[parent] (node % 3 == 0 ? "" : "      trace " node "\\n")
    printf "(node n%d %s %s%s)\n", node, parent == 0 ? "root" : "n" parent, applied == "" ? "(= x " node ")" : "(= (" applied " x) " node ")",
        node % 3 == 0 ? "" : " :trace \"trace " node "\"" >plan
    print fails[node] ? "refused" : "Proved" >truth
}

# What is said of the list in `node`, from 0 on, of so many nodes.
function answer(size,    i) {
    if (size > MOST_NODES) {
        return "2\tleskofar: " book ": refused 3: " size " nodes are named, and at most " MOST_NODES " may be\\n"
    }
    for (i = 0; i < size; i++) {
        if (node[i] > count) {
            return "2\tleskofar: " book ": refused 7: node " node[i] ", at position " i " of the list (the first is 0), is not in the book, whose last node is " count "\\n"
        }
    }
    for (i = 0; i < size; i++) {
        if (fails[node[i]]) {
            return "1\tnode " node[i] ", at position " i " of the list (the first is 0), would be refused 9: a function that is needed there is explained by an axiom without a term\\n" \
                (trace[node[i]] == "" ? "" : "  trace:\\n" trace[node[i]])
        }
    }
    return "0\t" (size == 1 ? "1 node" : size " nodes") " can be reached\\n"
}

# A list of nodes that can be reached, of which now and then one is any node, or one outside the book.
function write_list(size,    i, words, wild) {
    wild = any(4)
    words = ""
    for (i = 0; i < size; i++) {
        do node[i] = any(count + 1); while (fails[node[i]])
    }
    for (i = 0; i < wild; i++) node[any(size)] = any(count + 1)
    if (wild == 3) node[any(size)] = count + (any(2) ? 1 : any(1000))
    for (i = 0; i < size; i++) words = words " " node[i]
    print answer(size) "\t" words >list_file
}

BEGIN {
    MOST_NODES = 512
    srand(seed)
    plan = to ".plan"
    truth = to ".truth"
    list_file = to ".lists"
    write_functions()
    for (n = 1; n <= count; n++) add_node(n)
    print "(goal any root (= x 0))" >plan
    # No list at all is that of all nodes.
    for (n = 1; n <= count; n++) node[n - 1] = n
    print answer(count) "\t" >list_file
    for (l = 1; l < lists; l++) write_list(l % 8 == 0 ? MOST_NODES - 1 + any(3) : 1 + any(l))
}
