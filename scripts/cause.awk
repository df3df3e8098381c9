# What a refusal's number was in this model: reads the model's text as far as its form holds and prints one line, or none where nothing is
# found. It serves the messages of the scripts alone; what is judged or refused, the programs say. formula.awk is read beside it.
# Set before: number, ended (1 where the text ends in a line feed), size (bytes), most_.. (the limits); node and claim, or start, for ./witness;
# by_formula where a formula was asked, which stands in the file that the environment has as `asked`.
function is_number(s) { return s ~ /^(0|[1-9][0-9]*)$/ && length(s) <= 5 && s + 0 <= 65535 }
function are_numbers(s, n, part, i) {
    if (split(s, part, ",") != n) return 0
    for (i = 1; i <= n; i++) if (!is_number(part[i])) return 0
    return 1
}
function are_signs(s, set, n) { return length(s) == n && s !~ ("[^" set "]") }

# the parts of a text in their order, and what a line of each has behind its key
function due(at) {
    if (at == 3) return "init= and one digit, 0 or 1, for each state (" count["states"] ")"
    if (at == 4) return "label= and one letter, T, U or F, for each atom (" count["atoms"] ")"
    if (at == 6) return "edge= and two numbers with a comma between them"
    if (at == 8) return "node= and three numbers with commas between them"
    if (at == 9) return "nothing after the last node line"
    return key[at] "= and a number (decimal, up to 65535, no leading zeros)"
}
function fits(at, value) {
    if (at == 3) return are_signs(value, "01", count["states"])
    if (at == 4) return are_signs(value, "TUF", count["atoms"])
    if (at == 6) return are_numbers(value, 2)
    if (at == 8) return are_numbers(value, 3)
    return is_number(value)
}
function lines_of(at) { return at == 4 ? count["states"] : at == 6 ? count["edges"] : at == 8 ? count["nodes"] : 1 }

# one cause a number; the first that is met is kept
function found(words) { if (cause == "") cause = words }
function range(least, most, what, here) { return (least ? least " to " : "at most ") most " " what ", here " here }
function below(count, what) { return count > 1 ? what " are 0 to " count - 1 : count == 1 ? "of " what " there is only 0" : "there are no " what }
function meet_count(at, value) {
    count[key[at]] = value + 0
    if (at == 1 && number == 1) found(range(1, most_states, "states", value))
    if (at == 2 && number == 2) found(range(0, most_atoms, "atoms", value))
    if (at == 5 && number == 6) found(range(1, most_transitions, "transitions", value))
    if (at == 7 && number == 10 && (value + 0 < 1 || value + 0 > plain(most_nodes)))
        found((by_formula ? "the model's own nodes: " : "") range(1, most_nodes, "nodes", value))
}
function meet_edge(value, part) {
    split(value, part, ",")
    if (number == 7 && (part[1] + 0 >= count["states"] || part[2] + 0 >= count["states"]))
        found("line " NR ", edge=" value ": " below(count["states"], "states"))
    if (number == 8 && last_edge != "" && (part[1] + 0 < from || part[1] + 0 == from && part[2] + 0 <= to))
        found("line " NR ", edge=" value ": it doesn't come after edge=" last_edge "; transitions ascend by from and then by to, each once")
    from = part[1] + 0; to = part[2] + 0; last_edge = value
    leaves[from] = 1
}
function meet_node(value, part, this, i, use) {
    split(value, part, ",")
    this = "line " NR ", node=" value " (node " nodes "): "
    kind[nodes] = part[1] + 0
    if (kind[nodes] == 1) in_node[part[2] + 0] = 1
    if (number == 11 && kind[nodes] > most_kind + 0) found(this "kinds are 0 to " most_kind)
    if (number == 12 && !by_formula && kind[nodes] in uses)
        for (i = 1; i <= 2; i++) {
            use = substr(uses[kind[nodes]], i, 1)
            if (use == "n" && part[i + 1] + 0 >= nodes) found(this part[i + 1] " is no earlier node; " below(nodes, "earlier nodes"))
            if (use == "a" && part[i + 1] + 0 >= count["atoms"]) found(this part[i + 1] " is no atom; " below(count["atoms"], "atoms"))
            if (use == "-" && part[i + 1] + 0 > 0) found(this "the number " part[i + 1] " is unused here and must be 0")
        }
    nodes++
}

# what ./witness has a reason for, by the kind of a node
function claims_of(kind) {
    if (kind == 5 || kind == 10) return "true or possible"
    if (kind == 6 || kind == 11 || kind == 13) return "false"
    return kind == 12 ? "true" : ""
}
function no_reason(node, claim, i, listed, own) {
    for (i = 0; i < nodes; i++) if (index(claims_of(kind[i]), claim)) listed = listed (listed == "" ? "" : ", ") i
    own = claims_of(kind[node])
    return "node " node " is of kind " kind[node] ", which has " (own == "" ? "none" : "one for " own) "; nodes with one for " claim ": " (listed == "" ? "none" : listed)
}

BEGIN {
    split("states atoms init label edges edge nodes node", key, " ")
    # what a kind does with its two numbers: an atom, a node, nothing
    split("-- a- n- nn n- nn nn nn nn n- n- n- n- n-", list, " ")
    for (i in list) uses[i - 1] = list[i]
    nodes = 0; at = 1; left = 1
}
{
    head = key[at] "="
    value = substr($0, length(head) + 1)
    if (at == 9 || substr($0, 1, length(head)) != head || !fits(at, value)) { bad = NR; broken = $0; exit }
    if (at == 3 && number == 5 && value !~ /1/) found("line " NR ", init=" value ": no state is initial")
    else if (at == 6) meet_edge(value)
    else if (at == 8) meet_node(value)
    else if (at != 3 && at != 4) meet_count(at, value)
    if (--left > 0) next
    do at++; while (at < 9 && lines_of(at) == 0)
    left = lines_of(at)
}
END {
    if (number == 9) for (s = 0; s < count["states"]; s++) if (!(s in leaves)) found("state " s " has no transition out")
    if (number == 15) found(below(count["states"], "states") ", here " start)
    if (number == 18) found("at most " most_text " bytes, here " size)
    if (by_formula && number == 10) found("a formula has at most " most_nodes " nodes, here " nodes_in(asked()))
    if (by_formula && number == 12) found(atom_beyond(asked(), count["atoms"]))
    if (by_formula && number == 20) found(fault_in(asked()))
    if (by_formula && number == 22) found(atoms_lost(asked(), count["atoms"]))
    if (!by_formula && number == 22) for (a = 0; a < count["atoms"]; a++) if (!(a in in_node)) found("no node names atom " a "; " below(count["atoms"], "atoms"))
    if (number == "node") found(node + 0 < nodes ? no_reason(node + 0, claim) : below(nodes, "nodes") ", here " node)
    if (number == 19) {
        if (bad && at < 9 && broken ~ /\r$/) found("line " bad " ends in a carriage return; lines end in a line feed alone")
        else if (bad && (at == 3 || at == 4) && substr(broken, 1, length(head)) == head && length(value) != count[at == 3 ? "states" : "atoms"])
            found("line " bad " breaks the form; due there: " due(at) ", here " length(value))
        else if (bad) found("line " bad " breaks the form; due there: " due(at))
        else if (at < 9) found(NR > 0 && !ended ? "line " NR " isn't ended by a line feed" : "the text ends before line " NR + 1 "; due there: " due(at))
        else if (!ended) found("line " NR " isn't ended by a line feed")
    }
    if (cause != "") print cause
}
