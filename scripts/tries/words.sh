# What the scripts say: the limit, the value found, the wrong word.
# shellcheck shell=bash disable=SC2154,SC2034 # names that another of these files sets or reads
refused() { # NUMBER TEXT WORDS
    printf '%b#answer=%s\n' "$2" "$1" >refused
    call "$desk" refused >"$out"
    status 1 && says "refused with $1: " && says "$3" && no_scratch
}
asked() { # WORDS-EXPECTED ARGUMENTS
    expected=$1
    shift
    call "$witness" "$@" <listed >"$out"
    status 2 && says "$expected" && wrote "" && no_scratch
}
answered() { # STATUS ANSWER WORDS ARGUMENTS
    printf '%b#%s\n' "$graph" "$2" >model
    call "$witness" model "${@:4}" >"$out"
    status "$1" && says "$3" && no_scratch
}
answered_of() { # GRAPH STATUS ANSWER WORDS ARGUMENTS
    graph=$1
    answered "${@:2}"
}
uses() { # KIND WORDS-OF-LEFT WORDS-OF-RIGHT: what is said of a 1 that can't stand there
    refused 12 "${graph/node=5,0,0/node=$1,1,0}" "line 11, node=$1,1,0 (node 1): $2" &&
        refused 12 "${graph/node=5,0,0/node=$1,0,1}" "line 11, node=$1,0,1 (node 1): $3"
}
known_kinds() { # what the words know of each kind is what the rules have
    # shellcheck disable=SC2016 # a $ of awk's
    each=$(awk -F ' *[|] *' '
        function use(cell) { return cell == "unused" ? "-" : cell == "an atom" ? "a" : cell == "a node" ? "n" : "?" }
        /^## / { on = $0 == "## A model" }
        on && $2 ~ /^[0-9]+$/ { print use($4) use($5) }' <"$house/docs/RULES.md" | tr '\n' ' ')
    grep -qF "split(\"${each% }\", " "$house/scripts/cause.awk" || { echo "the rules have: $each"; return 1; }
}
helps() { call "$1" --help >"$out"; status 0 && grep -q "256 states" "$out" && grep -q "32,768 bytes" "$out"; }
helps_of_reasons() { helps "$witness" && grep -qF "'EF p1'" "$out" && grep -qF "kinds 5, 10" "$out" && grep -qF "has no such reason" "$out"; }

try "help names the limits, ./desk" helps "$desk"
try "help names the limits and what has a reason, ./witness" helps_of_reasons

graph='states=2\natoms=1\ninit=10\nlabel=T\nlabel=F\nedges=2\nedge=0,1\nedge=1,1\nnodes=2\nnode=1,0,0\nnode=5,0,0\n'
try "refusal 1" refused 1 'states=300\n' "1 to 256 states, here 300"
try "refusal 2" refused 2 'states=2\natoms=33\n' "at most 32 atoms, here 33"
try "refusal 5" refused 5 'states=2\natoms=0\ninit=00\n' "line 3, init=00: no state is initial"
try "refusal 6" refused 6 'states=1\natoms=0\ninit=1\nlabel=\nedges=2000\n' "1 to 1,024 transitions, here 2000"
try "refusal 7" refused 7 "${graph/edge=1,1/edge=1,2}" "line 8, edge=1,2: states are 0 to 1"
try "refusal 8" refused 8 "${graph/edge=1,1/edge=0,0}" "line 8, edge=0,0: it doesn't come after edge=0,1"
try "refusal 9" refused 9 "${graph/edge=0,1/edge=1,0}" "state 0 has no transition out"
try "refusal 10" refused 10 "${graph/nodes=2/nodes=65}" "1 to 64 nodes, here 65"
try "refusal 11" refused 11 "${graph/node=1,0,0/node=14,0,0}" "line 10, node=14,0,0 (node 0): kinds are 0 to 13"
try "refusal 12, an atom" refused 12 "${graph/node=1,0,0/node=1,1,0}" "line 10, node=1,1,0 (node 0): 1 is no atom"
try "refusal 12, a node" refused 12 "${graph/node=5,0,0/node=5,0,1}" "line 11, node=5,0,1 (node 1): 1 is no earlier node"
try "refusal 12, an unused number" refused 12 "${graph/node=1,0,0/node=1,0,3}" "the number 3 is unused here"
for kind in 3 5 6 7 8; do try "refusal 12, kind $kind" uses "$kind" "1 is no earlier node" "1 is no earlier node"; done
for kind in 2 4 9 10 11 12 13; do try "refusal 12, kind $kind" uses "$kind" "1 is no earlier node" "the number 1 is unused here"; done
try "the kinds that the words know are those of the rules" known_kinds
wide='states=1\natoms=3\ninit=1\nlabel=TTT\nedges=1\nedge=0,0\nnodes=3\nnode=1,0,0\nnode=1,2,0\nnode=4,1,0\n'
try "refusal 22, the only atom" refused 22 "${graph/node=1,0,0/node=0,0,0}" "no node names atom 0; of atoms there is only 0"
try "refusal 22, an operand that has the atom's number" refused 22 "$wide" "no node names atom 1; atoms are 0 to 2"
try "refusal 22, the first of two" refused 22 "${wide/node=1,0,0/node=1,2,0}" "no node names atom 0; atoms are 0 to 2"
try "refusal 22, the last" refused 22 "${wide/node=1,2,0/node=1,1,0}" "no node names atom 2; atoms are 0 to 2"
try "refusal 19, a wrong key" refused 19 'states=2\natom=1\n' "line 2 breaks the form; due there: atoms="
try "refusal 19, a short line" refused 19 'states=3\natoms=1\ninit=10\n' "for each state (3), here 2"
try "refusal 19, a carriage return" refused 19 'states=3\r\n' "line 1 ends in a carriage return"
try "./witness, a wrong node" asked "'07' is no node" 07 0 true
try "./witness, a wrong state" asked "'01' is no state" 0 01 true
try "./witness, a wrong claim" asked "'maybe' is neither true nor possible nor false" listed 0 0 maybe
try "./witness, a wrong claim before a count" asked "'treu' is neither true nor possible nor false" 0 0 treu 5
try "./witness, a wrong count" asked "'all' is no count" listed 0 0 true all
try "./witness, too few words" asked "here are 2 words" 0 0
try "./witness, no such state" answered 1 answer=15 "states are 0 to 1, here 9" 1 9 true
try "./witness, no such node" answered 2 "no question: the model has no such node" "nodes are 0 to 1, here 7" 7 0 true
no_node="no question: this node has no such reason"
try "./witness, a node of another kind" answered 2 "$no_node" "$no_node; node 0 is of kind 1, which has none; nodes with one for true: 1" 0 0 true
more=${graph/nodes=2/nodes=4}'node=13,0,0\nnode=10,0,0\n'
try "./witness, a node of another kind, beside an EF" answered_of "$more" 2 "$no_node" "kind 13, which has one for false; nodes with one for true: 1, 3" 2 0 true
more=${graph/node=5,0,0/node=11,0,0}
try "./witness, a node of another kind, and no other" answered_of "$more" 2 "$no_node" "kind 11, which has one for false; nodes with one for true: none" 1 0 true
