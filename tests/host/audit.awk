# Judges a script by the one that it was made from: what `leskofar audit` must say of it, and its status before that.
#
#   questions  the pairs of node and term that the first script asks
#   script     the second one's name in complaints
#
# The first file is the first script, the second file the changed one. Lines are told apart as far as changed scripts need it.

function pushes(line) { return line == "(push 1)" }
function pops(line) { return line == "(pop 1)" }
function checks(line) { return line == "(check-sat)" }
function joins(line) { return line ~ /^\((assert|declare-fun|declare-sort) .*\)$/ }
function is_command(line) { return pushes(line) || pops(line) || checks(line) || line == "(get-model)" || joins(line) }

# The lines of each level, in an order that is always the same.
function live(    text, l, i, j, sorted, kept) {
    text = ""
    for (l = 0; l <= level; l++) {
        for (i = 1; i <= count[l]; i++) {
            kept = lines[l, i]
            for (j = i - 1; j >= 1 && sorted[j] > kept; j--)
                sorted[j + 1] = sorted[j]
            sorted[j + 1] = kept
        }
        for (i = 1; i <= count[l]; i++)
            text = text sorted[i] "\n"
        text = text "\f"
    }
    return text
}

function begin() {
    level = 0
    count[0] = 0
    asked = 0
}

function hear(line) {
    if (pushes(line))
        count[++level] = 0
    else if (pops(line))
        level--
    else if (joins(line))
        lines[level, ++count[level]] = line
}

function fault(number, what) {
    if (complaint == "")
        complaint = "2\tleskofar: " script ": refused " number ": " what
}

BEGIN {
    pair_count = split(questions, pairs, " ") / 2
    begin()
}

NR > 1 && FNR == 1 {
    begin()
    is_changed = 1
}

# Behind a fault there is nothing more to hear.
is_changed && complaint != "" { next }

is_changed && !is_command($0) {
    fault(26, "line " FNR " is no command of ours")
    next
}

is_changed && pops($0) && level == 0 {
    fault(26, "line " FNR " pops the first level")
    next
}

checks($0) {
    asked++
    if (!is_changed)
        ours[asked] = live()
    else if (rejection == "" && live() != ours[asked])
        rejection = "1\trejected: check-sat " asked " at line " FNR ", node " pairs[2 * asked - 1] ", term " pairs[2 * asked]
    next
}

{ hear($0) }

END {
    if (asked != pair_count)
        fault(27, "the check-sats are " asked ", and the questions " pair_count)
    print complaint != "" ? complaint : rejection != "" ? rejection : "0\taccepted"
}
