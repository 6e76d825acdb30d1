# Judges the mutants' runs: `count` of them, in files `at`N.*. Prints a line for each one at fault, and last the counts.

# A file of one line.
function only_line(path,    line) {
    line = ""
    getline line <path
    close(path)
    return line
}

# Why each goal must never be proved, by its name; `unreadable` for all of them.
function read_never(n,    path, line) {
    split("", never)
    is_unreadable = 0
    path = at n ".never"
    while ((getline line <path) > 0) {
        if (line == "unreadable") {
            is_unreadable = 1
        } else {
            never[substr(line, index(line, " ") + 1)] = substr(line, 1, index(line, " ") - 1)
        }
    }
    close(path)
}

# What the host said of each pair of node and term.
function read_results(n,    path, line, word) {
    split("", is_proved)
    split("", is_answered)
    path = at n ".out"
    while ((getline line <path) > 0) {
        if (line ~ /^node [0-9]+, term [0-9]+: /) {
            split(line, word, /[ ,:]+/)
            is_answered[word[2] " " word[4]] = 1
            if (word[5] == "Proved") {
                is_proved[word[2] " " word[4]] = 1
            }
        }
    }
    close(path)
}

function judge_goals(n,    path, line, word, pair, name, why) {
    path = at n ".goals"
    while ((getline line <path) > 0) {
        split(line, word, " ")
        pair = word[1] " " word[2]
        name = substr(line, length(pair) + 2)
        why = is_unreadable ? "unreadable" : name in never ? never[name] : ""
        goals += pair in is_answered
        proved += pair in is_proved
        known += pair in is_answered && why == "counterexample"
        if (why != "" && pair in is_proved) {
            complaint = "goal " name " is Proved: " why
        }
    }
    close(path)
}

function judge(n,    result) {
    complaint = ""
    result = only_line(at n ".result")
    if (result == "plan 1") {
        by_plan++
    } else if (result == "host 2") {
        by_host++
    } else if (result ~ /^host [013]$/) {
        asked++
    } else if (result != "") {
        complaint = "ends with " result
    }
    if (result ~ /^host/) {
        read_never(n)
        read_results(n)
        judge_goals(n)
    }
    if (complaint != "") {
        faults++
        print "FAILED: mutant " n " (" only_line(at n ".ways") "): " complaint
    }
}

BEGIN {
    for (n = 1; n <= count; n++) {
        judge(n)
    }
    print faults + 0, by_plan + 0, by_host + 0, asked + 0, goals + 0, proved + 0, known + 0
}
