# Reasons: how ./witness takes a claim and tells its answer, and, where the programs are built and current, every kind with every claim. Which
# picture is chosen is free, so its shape is looked at and not its entries.
# shellcheck shell=bash disable=SC2154,SC2034 # names that another of these files sets or reads
said() { if [ -n "$1" ]; then says "$1"; else [ ! -s "$err" ]; fi; } # WORDS, or that nothing was said
shows() { # STATUS ANSWER WORDS ARGUMENTS, the model on standard input too
    printf '%b#%b\n' "$graph" "$2" >shown
    call "$witness" "${@:4}" <shown >"$out"
    status "$1" && said "$3" && wrote "$(printf '%b' "$2")" && no_scratch
}
claims_of() { # KIND: what it has a reason for, as it is said
    case $1 in 5 | 10) echo "one for true or possible" ;; 6 | 11 | 13) echo "one for false" ;; 12) echo "one for true" ;; *) echo none ;; esac
}
said_of_kinds() { # what is said of a node where its kind has no reason for the claim
    of_kind_5=$graph
    for kind in 0 1 2 3 4 5 6 7 8 9 10 11 12 13; do
        has=$(claims_of "$kind")
        for claim in true possible false; do
            case $has in *$claim*) continue ;; esac
            words="$no_node; node 1 is of kind $kind, which has $has; nodes with one for $claim: none"
            answered_of "${of_kind_5/node=5,0,0/node=$kind,0,0}" 2 "$no_node" "$words" 1 0 "$claim" || { echo "of kind $kind, $claim"; return 1; }
        done
    done
}
claimed_by() { # COMMAND: with another shell or another awk
    printf '%b#path=0,1\nback=0\n' "$graph" >shown
    call "$@" "$witness" shown 'AF p0' 0 false >"$out"
    status 0 && wrote $'path=0,1\nback=0' || return 1
    printf '%b#%s\n' "${graph/node=5,0,0/node=12,0,0}" "$no_node" >shown
    call "$@" "$witness" shown 1 0 false >"$out"
    status 2 && says "kind 12, which has one for true; nodes with one for false: none" && no_scratch
}
claimed_with() { # AWK
    mkdir -p "$room/other"
    printf '#!/bin/sh\nexec %s "$@"\n' "$*" >"$room/other/awk"
    chmod +x "$room/other/awk"
    PATH=$room/other:$PATH claimed_by nice -n 0
}

# How a reason is told, and its two rows in letters; nothing where the kind has none for the claim.
set_reason() { # KIND CLAIM ROW-OF-LEFT ROW-OF-RIGHT
    everywhere=${3//?/T} opposite=$(echo "$3" | tr TF FT)
    case $1:$2 in
        5:true | 5:possible) told=paths left=$3 right=$4 ;;
        10:true | 10:possible) told=paths left=$everywhere right=$3 ;;
        13:false) told=paths left=$everywhere right=$opposite ;;
        6:false) told=picture left=$3 right=$4 ;;
        11:false) told=picture left=$everywhere right=$3 ;;
        12:true) told=picture left=$everywhere right=$opposite ;;
        *) told='' left='' right='' ;;
    esac
}
# The look at a reason finds fault with what is none: on the edges 0,1 and 1,0 and 1,1 and 1,2 and 2,2, asked about state 0.
faulty() { # TOLD CLAIM ROW LEFT RIGHT ANSWERS
    printf 'edge=%s\n' 0,1 1,0 1,1 1,2 2,2 >edges
    for answered in "${@:6}"; do
        printf '%b\n' "$answered" >"$out"
        if awk -v state=0 -v told="$1" -v claim="$2" -v row="$3" -v left="$4" -v right="$5" -f "$here/tries/shown.awk" edges "$out"; then
            echo "no fault is found with $answered"
            return 1
        fi
    done
}
answers_with() { # STATUS ANSWER WORDS ARGUMENTS, the program itself
    call "$checkout/witness" "${@:4}" >"$out" </dev/null
    status "$1" && said "$3" && wrote "$2" && no_scratch
}
only=()
shown_at() { # STATE CLAIM ROW MODEL QUESTION [MOST]: what is written is such a reason, or none where it isn't so
    call "$checkout/witness" "${only[@]}" "$4" "$5" "$1" "$2" "${@:6}" >"$out" </dev/null
    status 0 && no_scratch || return 1
    awk -v state="$1" -v claim="$2" -v row="$3" -v told="$told" -v left="$left" -v right="$right" -f "$here/tries/shown.awk" "$4" "$out"
}
shown_everywhere() { # CLAIM ROW MODEL QUESTION [MOST]
    [ -n "$2" ] || { echo "no row of $4"; return 1; }
    for ((state = 0; state < ${#2}; state++)); do shown_at "$state" "$@" || return 1; done
}
node_shown() { # KIND: the node of this kind in the model of every kind, with every claim, and a count that leaves nothing out
    mapfile -t rows < <("$checkout/desk" kinds 2>/dev/null | sed -n 's/^row=//p')
    node=$1
    [ "$1" != 0 ] || node=14
    for claim in true possible false; do
        set_reason "$1" "$claim" "${rows[0]}" "${rows[1]}"
        if [ -n "$told" ]; then
            shown_everywhere "$claim" "${rows[node]}" kinds "$node" 9 || return 1
        else
            answers_with 2 "$no_node" "$no_node; node $node is of kind $1, which has $(claims_of "$1"); nodes" kinds "$node" 0 "$claim" || return 1
        fi
    done
}
nodes_shown() { for kind; do node_shown "$kind" || { echo "of kind $kind"; return 1; }; done; } # KINDS
row_of() { "$checkout/ask" --only-named "$1" "$2" 2>/dev/null | sed -n 's/^row=//p'; } # MODEL FORMULA
formula_shown() { # KIND CLAIM MODEL FORMULA LEFT [RIGHT]: a formula, and what it is made of
    set_reason "$1" "$2" "$(row_of "$3" "$5")" "${6:+$(row_of "$3" "$6")}"
    only=(--only-named)
    shown_everywhere "$2" "$(row_of "$3" "$4")" "$3" "$4"
}
ring() { # LABELS LABELS-OF-THE-FIRST LABELS-OF-THE-LAST: as many states as there may be, one behind the other, the first behind the last
    echo states=256 && echo atoms=2 && printf 'init=1%0255d\n' 0 && echo "label=$2"
    for ((state = 1; state < 255; state++)); do echo "label=$1"; done
    echo "label=$3" && echo edges=256
    for ((state = 0; state < 255; state++)); do echo "edge=$state,$((state + 1))"; done
    printf '%s\n' edge=255,0 nodes=3 node=1,0,0 node=1,1,0 node=6,0,1
}
longest_shown() { # LABELS LABELS-OF-THE-FIRST LABELS-OF-THE-LAST STATE ANSWER: the only picture that there is
    ring "$1" "$2" "$3" >longest
    call "$checkout/witness" longest 2 "$4" false >"$out"
    status 0 && wrote "$5" && no_scratch
}

if grep -qF 'true|possible|false' "$house/witness"; then
    cp listing false
    try "./witness, false" lists '[A(T U p1)][0]' listing 'A(T U p1)' 0 false
    try "./witness, false, without a file" lists '[AF p1][0]' 'AF p1' 0 false
    try "./witness, false and a count" lists '[AF p1][0]' 'AF p1' 0 false 5
    try "./witness, false, a file and a count" lists '[7][0]' listing 7 0 false 5
    try "./witness, a file with the name false" lists '[AF p1][0]' false 'AF p1' 0 false
    for wrong in False unknown F ''; do
        try "./witness, '$wrong' for a claim" misasked "'$wrong' is neither true nor possible nor false" "$witness" listing 'AF p1' 0 "$wrong"
    done
    try "./witness, false where a state is due" misasked "'false' is no state" "$witness" listing 'AF p1' false false
    try "./witness, false where a count is due" misasked "'false' is no count" "$witness" listing 'AF p1' 0 false false
    try "./witness, false and no state" misasked "'listing' is a file, and what is asked of it isn't whole" "$witness" listing 'AF p1' false
    for told in 'path=0,1\nfalls' 'path=0,1\nback=255' none more; do
        try "./witness, an answer, $told" shows 0 "$told" '' shown 'AF p0' 0 false
    done
    for told in 'path=0,1' falls back=0 'path=0,1\nback=' 'path=0,1\nback=01' 'none\nfalls'; do
        try "./witness, an answer cut short, $told" shows 3 "$told" "the program's answer isn't whole" shown 'AF p0' 0 false
    done
    try "./witness, a formula without a reason" shows 2 "$no_reason" "$no_reason; there is one $hint" shown 'EG p0' 0 false
    try "./witness, kinds without a reason" said_of_kinds
    try "bash in place of sh, ./witness and a claim" claimed_by bash
    for awk in mawk gawk original-awk; do
        if command -v "$awk" >/dev/null; then try "$awk in place of awk, ./witness and a claim" claimed_with "$awk"; fi
    done
    if command -v busybox >/dev/null; then
        try "busybox's sh in place of sh, ./witness and a claim" claimed_by busybox sh
        try "busybox's awk in place of awk, ./witness and a claim" claimed_with busybox awk
    fi
fi
wrong=(none more '' 'path=0' 'path=0\nend' 'path=1\nback=0' 'path=0\nback=0' 'path=0,1\nback=2' 'path=0,1\nback=' 'path=0,1\nback=0\nend' 'path=0,2\nback=1'
    'path=0,1\nfalls' 'path=0,1,2\nfalls' 'path=0,1,1,1\nback=0' 'path=0,1\npath=0,1\nback=0')
try "no picture that is none passes" faulty picture false FFF TTF FFT "${wrong[@]}"
try "no picture passes where there is none" faulty picture false UFF TTF FFF 'path=0,1\nback=0'
wrong=(none more 'path=0,1,2' 'path=0,1,2\nmore' 'path=1,2\nend' 'path=0,2\nend' 'path=0,1\nend' 'path=0,1,2\nback=0' 'path=0,1,1,2\nend' 'path=0\nend')
try "no paths that are none pass" faulty paths true TTT TTF FUT "${wrong[@]}"
if grep -qF 'true|possible|false' "$house/witness" && (built); then
    # node k is of kind k, but the first, another atom, and the last, of kind 0
    printf '%s\n' states=5 atoms=2 init=10000 label=TF label=TF label=FF label=TT label=UF edges=8 edge=0,1 edge=0,3 edge=1,0 edge=1,2 edge=2,2 \
        edge=3,3 edge=4,3 edge=4,4 nodes=15 node=1,0,0 node=1,1,0 node=2,0,0 node=3,0,1 node=4,0,0 node=5,0,1 node=6,0,1 node=7,0,1 node=8,0,1 \
        node=9,0,0 node=10,0,0 node=11,0,0 node=12,0,0 node=13,0,0 node=0,0,0 >kinds
    for kind in 5 6 10 11 12 13; do try "every claim about kind $kind" nodes_shown "$kind"; done
    try "every claim about a kind without a reason" nodes_shown 0 1 2 3 4 7 8 9
    for example in "$checkout"/examples/*.model; do cp "$example" .; done
    sed 's/^label=FU/label=FF/' always-returns.model >never-returns.model
    try "A-until false, the settled late tick" formula_shown 6 false late-tick-settled.model 'A(p0 U p1)' p0 p1
    try "A-until false, the late tick" formula_shown 6 false late-tick.model 'A(p0 U p1)' p0 p1
    try "A-until false, of parts that aren't atoms" formula_shown 6 false never-returns.model 'A(EX p0 U AX p1)' 'EX p0' 'AX p1'
    try "AF false, the tick that may not return" formula_shown 11 false always-returns.model 'AF p1' p1
    try "AF false, the tick that doesn't return" formula_shown 11 false never-returns.model 'AF p1' p1
    try "EG true, the tick that doesn't return" formula_shown 12 true never-returns.model 'EG !p1' '!p1'
    try "EG true, two states" formula_shown 12 true two-states.model 'EG p0' p0
    try "AG false, the tick that doesn't return" formula_shown 13 false never-returns.model 'AG (p0>AF p1)' '(p0>AF p1)'
    try "AG false, two states" formula_shown 13 false two-states.model 'AG !p0' '!p0'
    try "EF possible, the tick that may not return" formula_shown 10 possible always-returns.model 'EF (p0&EG !p1)' '(p0&EG !p1)'
    try "the longest picture that goes back" longest_shown TF TF TF 100 "path=$(seq -s , 100 255),$(seq -s , 0 99)"$'\nback=0'
    try "the longest picture that only falls" longest_shown TF TT FF 1 "path=$(seq -s , 1 255)"$'\nfalls'
    try "no such state, a picture" answers_with 1 answer=15 "states are 0 to 4, here 5" kinds 6 5 false
    try "no such state, paths of an AG" answers_with 1 answer=15 "states are 0 to 4, here 5" kinds 13 5 false
    try "no such node, false" answers_with 2 "no question: the model has no such node" "nodes are 0 to 14, here 15" kinds 15 0 false
    try "a count of 0, a picture" answers_with 0 more '' kinds 6 0 false 0
    try "a count of 0, no picture" answers_with 0 none '' kinds 6 3 false 0
    try "a count of 0, paths of an AG" answers_with 0 more '' kinds 13 0 false 0
    try "a count of 1, paths of an AG" answers_with 0 $'path=0,1,2\nend' '' kinds 13 0 false 1
    sed 's/^edge=0,1$/edge=0,9/' kinds >refused
    try "a refused model, false" answers_with 1 answer=7 "edge=0,9: states are 0 to 4" refused 6 0 false
    try "a refused formula, false" answers_with 1 answer=20 "due there: )" kinds 'A(p0 U p1' 0 false
    try "a formula that leaves out an atom, false" answers_with 1 answer=22 "doesn't name p1" kinds 'AF p0' 0 false
    for formula in T '!AF p0' 'EG p0' 'EF p0'; do
        try "no reason, $formula false" answers_with 2 "$no_reason" "$no_reason; there is one $hint" --only-named kinds "$formula" 0 false
    done
else
    echo "the pictures weren't tried with the program: the programs aren't built here"
fi
