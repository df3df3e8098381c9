# Formulas: how ./ask and ./witness take them, and what is said of those that are refused.
# shellcheck shell=bash disable=SC2154,SC2034 # names that another of these files sets or reads
takes() { # WORDS-OF-THE-PROGRAM ARGUMENTS, the model on standard input too
    expected=$1
    shift
    call "$ask" "$@" <echoed >"$out"
    status 0 && wrote $'answer=0\nwords='"$expected"$'\nmodel=T' && no_scratch
}
misasked() { # WORDS-EXPECTED ARGUMENTS; nothing comes on standard input, and nothing may be waited for
    expected=$1
    shift
    pipe
    timeout 20 "$@" <&7 >"$out" 2>"$err"
    got=$?
    exec 7>&-
    status 2 && says "$expected" && wrote "" && no_scratch
}
refuses() { # NUMBER TEXT FORMULA WORDS
    printf '%b#answer=%s\n' "$2" "$1" >refused
    call "$ask" refused "$3" >"$out"
    status 1 && says "refused with $1: " && says "$4" && wrote "answer=$1" && no_scratch
}
not_said() { ! grep -F -- "$1" "$err"; }
refuses_alone() { # NUMBER TEXT FORMULA WORDS: these, and not those of the other calls
    refuses "$@" && not_said printing && not_said operand && not_said unused && not_said "multiple of 3"
}
no_capital() { refuses 20 "$graph" "$1" "$2" && not_said capital; }
no_single() { refuses 20 "$graph" "$1" "$2" && not_said single; }
no_brackets() { refuses 20 "$graph" "$1" "$2" && not_said "has brackets"; }
lists() { # WORDS-OF-THE-PROGRAM ARGUMENTS, the model on standard input too
    expected=$1
    shift
    call "$witness" "$@" <listing >"$out"
    status 0 && wrote "path=$expected"$'\nend' && no_scratch
}
own_nodes() { # the fault of a node that isn't asked isn't told
    refuses 12 "${graph/node=1,0,0/node=1,7,0}" p9 "the formula names p9" && ! grep -F "line 10" "$err"
}
no_state=": a number up to 65535 is due; a formula with blanks is put in quotes"
capital="; A, E, F, G, T, U and X are capital letters"
forms=(T 'p0 to p31' '!f' '(f&g)' '(f|g)' '(f>g)' 'EX f' 'AX f' 'EF f' 'AF f' 'EG f' 'AG f' 'E(f U g)' 'A(f U g)')
forms_shown() { # FILE: each form has a line, and no sign of the rules' table is left
    for form in "${forms[@]}"; do
        grep -q "^$(printf '  %-12s[a-z]' "$form")" "$1" || { echo "no line for $form"; return 1; }
    done
    ! grep -F "\\" "$1"
}
grammar_told() {
    refuses 20 "$graph" 'EX p0)' "byte 6 of the formula is ')'; due there: the end of the formula" && says "one blank" && forms_shown "$err"
}
faultless() { refuses 20 "$graph" "$1" "refused with 20: " && not_said "of the formula is" && not_said "the formula ends"; }
settings() { # a caller's own variables
    printf '%b#answer=12\n' "${graph/node=1,0,0/node=1,1,0}" >refused
    formula=p9 asked=p9 parts=parts call "$desk" refused >"$out"
    status 1 && says "line 10, node=1,1,0 (node 0): 1 is no atom"
}
closed_model() { call "$ask" 'EX p0' <&- >"$out"; status 2 && says "closed" && wrote "" && no_scratch; }
closed_beside() { call "$ask" echoed 'EX p0' <&- >"$out"; status 0 && no_scratch; }
closed_answer() { call "$ask" echoed 'EX p0' >&-; status 3 && says "closed" && no_scratch; }
full_answer() { call "$ask" echoed 'EX p0' >/dev/full; status 3 && says "can't be written" && no_scratch; }
cut_short() { printf '#answer=0\nrow=T\n' >refused; call "$ask" refused T >"$out"; status 3 && says "isn't whole" && no_scratch; }
no_question() { printf '#no question: %s\n' "a formula is due" >refused; call "$ask" refused T >"$out"; status 2 && says "a formula is due" && no_scratch; }
explains() { call "$ask" --help >"$out"; status 0 && grep -q "4,096 bytes" "$out" && grep -q "256 states" "$out" && forms_shown "$out"; }
new_forms() { # COMMAND: how it takes them, and what it says of them, with another shell or another awk
    call "$@" "$ask" 'AG (p0>AF p1)' <echoed >"$out"
    status 0 && wrote $'answer=0\nwords=[AG (p0>AF p1)][]\nmodel=T' || return 1
    call "$@" "$ask" 'AG (p0>AF' 'p1)' <echoed >"$out"
    status 2 && says "there is no file 'AG (p0>AF': the file comes first" || return 1
    call "$@" "$witness" listing 'E(T U (p0|EF' 'p1))' 0 true >"$out"
    status 2 && says "'p1))' is no state$no_state" || return 1
    printf '%b#answer=20\n' "$graph" >refused
    call "$@" "$ask" refused '(p0||p1)' >"$out"
    status 1 && says "byte 5 of the formula is '|'; due there: a formula; the sign is a single |" && forms_shown "$err" || return 1
    printf '%b#answer=12\n' "${graph/node=5,0,0/node=13,0,1}" >refused
    call "$@" "$desk" refused >"$out"
    status 1 && says "the number 1 is unused here" && no_scratch
}
with_awk() { # AWK
    mkdir -p "$room/other"
    printf '#!/bin/sh\nexec %s "$@"\n' "$*" >"$room/other/awk"
    chmod +x "$room/other/awk"
    PATH=$room/other:$PATH new_forms nice -n 0
}

if [ -e "$house/ask" ]; then
    printf '#answer=0\nwords=%%\nmodel=T\n' >echoed
    cp echoed ./-model
    cp echoed 'EX p1'
    cp echoed p2.model
    printf '#path=%%\nend\n' >listing
    cp listing 'E(p0 U p1)'
    cp listing true
    many=$(printf '%64s' '' | tr ' ' '!')
    long=$(printf '%4096s' '' | tr ' ' '!')
    longest=$(printf '%131071s' '' | tr ' ' '!') # as the system takes a word
    # eight times the seven prefixes, and a formula with every bracket: 56 nodes and 11
    each=$(for _ in 1 2 3 4 5 6 7 8; do printf '!EX AX EF AF EG AG '; done)'(T&(T|(T>E(T U A(T U p0)))))'

    try "help names the limits and the grammar, ./ask" explains
    try "a file and a formula" takes '[EX p0][]' echoed 'EX p0'
    try "--parts before" takes '[EX p0][parts]' --parts echoed 'EX p0'
    try "--parts between" takes '[EX p0][parts]' echoed --parts 'EX p0'
    try "--parts behind" takes '[EX p0][parts]' echoed 'EX p0' --parts
    try "- and a formula" takes '[EX p0][]' - 'EX p0'
    try "a formula alone, its parts" takes '[!p0][parts]' --parts '!p0'
    for alone in T p0 '(p0|T)' 'E(T U p0)' 'A(T U p0)'; do try "a formula alone, $alone" takes "[$alone][]" "$alone"; done
    try "a formula, and a file that begins with -, behind --" takes '[EX p0][parts]' --parts -- -model 'EX p0'
    try "-- between file and formula" takes '[EX p0][]' echoed -- 'EX p0'
    try "a file with a formula as its name" takes '[p0][]' 'EX p1' p0
    try "signs that shells and awk read go through as they are" takes "[*\\t\$x \"a\"][]" echoed "*\\t\$x \"a\""
    try "an empty formula goes through" takes '[][]' echoed ''
    try "a formula, and closed input for the model" closed_model
    try "closed input beside a file" closed_beside
    try "closed output, ./ask" closed_answer
    try "a full device, ./ask" full_answer
    try "an answer cut short" cut_short
    try "an answer that it was no question" no_question
    try "no word at all" misasked "a file and a formula are due" "$ask"
    try "a file without a formula" misasked "'echoed' is a file, and what is asked of it isn't whole" "$ask" echoed
    try "a file without a formula, with a formula's beginning" misasked "'p2.model' is a file" "$ask" p2.model
    try "one word that is neither" misasked "'echo' is neither a file nor a formula" "$ask" echo
    try "one word, an empty one" misasked "'' is neither a file nor a formula" "$ask" ''
    try "a file that isn't there, and a formula" misasked "there is no file 'nowhere'" "$ask" nowhere 'EX p0'
    try "a formula without quotes, and no file, of three words" misasked "put in quotes: 'E(p0 U p1)'" "$ask" 'E(p0' U 'p1)'
    try "a formula without quotes behind a file with a formula's beginning" misasked "put in quotes: 'EX p0'" "$ask" p2.model EX p0
    for prefix in EX AX EF AF EG AG; do
        try "a formula alone, of $prefix" takes "[$prefix p0][]" "$prefix p0"
        try "a formula without quotes, of $prefix" misasked "put in quotes: '$prefix p0'" "$ask" echoed "$prefix" p0
        try "a formula without quotes, and no file, of $prefix" misasked "there is no file '$prefix': the file comes first" "$ask" "$prefix" p0
        try "refusal 20, no blank behind $prefix" refuses 20 "$graph" "${prefix}p0" "byte 3 of the formula is 'p'; due there: a blank"
        try "refusal 20, two blanks behind $prefix" refuses 20 "$graph" "$prefix  p0" "byte 4 of the formula is a blank; due there: a formula"
        try "refusal 20, nothing behind $prefix" refuses 20 "$graph" "$prefix " "the formula ends behind byte 3; due there: a formula"
        try "./witness, a formula in two pieces behind $prefix" misasked "'p1)' is no state$no_state" "$witness" listing "E(T U $prefix" 'p1)' 0 true
    done
    for sign in '!' '(' '(p0&' '(p0|' '(p0>'; do
        try "./witness, a formula in two pieces, $sign before EF" misasked "'p1' is no state$no_state" "$witness" listing "${sign}EF" p1 0 true
    done
    try "a formula without quotes, and no file, with a prefix first" misasked "put in quotes: 'AG (p0>AF p1)'" "$ask" AG '(p0>AF' 'p1)'
    try "a formula before its file" misasked "there is no file '!p0': the file comes first" "$ask" '!p0' echoed
    try "an option that there isn't, ./ask" misasked "there is no option --part;" "$ask" --part echoed T
    try "refusal 20, an empty formula" refuses 20 "$graph" '' "the formula is empty"
    try "refusal 20, a bracket is missing" refuses 20 "$graph" 'E(p0 U p1' "the formula ends behind byte 9; due there: )"
    try "refusal 20, small letters" refuses 20 "$graph" 'ex p0' "byte 1 of the formula is 'e'; due there: a formula$capital"
    try "refusal 20, a small t" refuses 20 "$graph" '!t' "byte 2 of the formula is 't'; due there: a formula$capital"
    try "refusal 20, small letters, ag" refuses 20 "$graph" 'ag p0' "byte 1 of the formula is 'a'; due there: a formula$capital"
    try "refusal 20, a small u" refuses 20 "$graph" 'E(p0 u p1)' "byte 6 of the formula is 'u'; due there: U$capital"
    for letter in x f g; do
        try "refusal 20, a small $letter" refuses 20 "$graph" "A$letter p0" "byte 2 of the formula is '$letter'; due there: X, F, G or ($capital"
    done
    try "refusal 20, a small letter where a number is due" no_capital parts "byte 2 of the formula is 'a'; due there: the number of an atom"
    try "refusal 20, a small letter where nothing is due" no_capital p0x "byte 3 of the formula is 'x'; due there: the end of the formula"
    try "refusal 20, a small letter where a blank is due" no_capital 'EXx' "byte 3 of the formula is 'x'; due there: a blank"
    try "refusal 20, a small letter that no formula begins with" no_capital 'EF f' "byte 4 of the formula is 'f'; due there: a formula"
    try "refusal 20, an A alone" refuses 20 "$graph" A "the formula ends behind byte 1; due there: X, F, G or ("
    try "refusal 20, square brackets" refuses 20 "$graph" 'A[p0 U p1]' "byte 2 of the formula is '['; due there: X, F, G or ("
    try "refusal 20, a G without A or E" refuses 20 "$graph" '!G p0' "byte 2 of the formula is 'G'; due there: a formula; G stands behind an E or an A"
    try "refusal 20, an F for false" refuses 20 "$graph" '(p0>F)' "byte 5 of the formula is 'F'; due there: a formula; F stands behind an E or an A, and false is !T"
    try "refusal 20, a bracket in place of the blank" refuses 20 "$graph" 'AG(p0)' "byte 3 of the formula is '('; due there: a blank"
    try "refusal 20, brackets around one formula" refuses 20 "$graph" 'AG (p0)' "byte 7 of the formula is ')'; due there: &, | or >; brackets hold two formulas"
    try "refusal 20, a bracket with one formula" refuses 20 "$graph" '(p0' "the formula ends behind byte 3; due there: &, | or >"
    try "refusal 20, blanks around a sign" refuses 20 "$graph" '(p0 | p1)' "byte 4 of the formula is a blank; due there: &, | or >"
    try "refusal 20, an arrow" refuses 20 "$graph" '(p0->p1)' "byte 4 of the formula is '-'; due there: &, | or >; an implies is written (f>g)"
    try "refusal 20, an arrow of two lines" refuses 20 "$graph" 'p0=>p1' "byte 3 of the formula is '='; due there: the end of the formula; an implies is written (f>g)"
    for sign in '&:and' '|:or' '>:implies'; do
        word=${sign#*:} sign=${sign%%:*}
        try "refusal 20, two signs, $word" refuses 20 "$graph" "(p0$sign${sign}p1)" "byte 5 of the formula is '$sign'; due there: a formula; the sign is a single $sign"
        hint="; an $word has brackets of its own"
        try "refusal 20, three formulas in a bracket, $word" refuses 20 "$graph" "(p0|p1${sign}p2)" "byte 7 of the formula is '$sign'; due there: )$hint"
        try "refusal 20, no brackets, $word" refuses 20 "$graph" "p0${sign}p1" "byte 3 of the formula is '$sign'; due there: the end of the formula$hint"
        try "refusal 20, no brackets before U, $word" refuses 20 "$graph" "E(T${sign}p1 U T)" "byte 4 of the formula is '$sign'; due there: a blank$hint"
    done
    try "refusal 20, a sign behind a bracket" refuses 20 "$graph" '!(p0&T)|p0' "byte 8 of the formula is '|'; due there: the end of the formula; an or has brackets"
    try "refusal 20, a sign before all formulas" no_single '||' "byte 1 of the formula is '|'; due there: a formula"
    try "refusal 20, a sign behind a prefix" no_brackets 'EX|p0' "byte 3 of the formula is '|'; due there: a blank"
    for formula in 'AG (p0>AF p1)' '(p0|!EX AX EF AF EG AG T)' 'E((p0|T) U A(EG p0 U (T>p0)))'; do
        try "refusal 20, and no fault that the words know, $formula" faultless "$formula"
    done
    try "refusal 20, a greater atom" refuses 20 "$graph" p32 "byte 3 of the formula is '2'; due there: no digit that makes it more than p31"
    try "refusal 20, a leading zero" refuses 20 "$graph" '!p00' "byte 4 of the formula is '0'; due there: no digit, as numbers have no leading zeros"
    try "refusal 20, a backslash" refuses 20 "$graph" '!\041' "byte 2 of the formula is '\\'"
    try "refusal 20, a byte beyond ASCII" refuses 20 "$graph" 'é' "byte 1 of the formula is a byte that no formula has"
    try "refusal 20, a long formula" refuses 20 "$graph" "${long}T" "at most 4,096 bytes, here 4097"
    try "refusal 20, the longest word of a call" refuses 20 "$graph" "$longest" "at most 4,096 bytes, here 131071"
    try "refusal 20, line feeds" refuses 20 "$graph" $'T\n\n' "byte 2 of the formula is a byte that no formula has; due there: the end of the formula"
    try "refusal 20, a long formula of line feeds" refuses 20 "$graph" "${long//!/$'\n'}T" "at most 4,096 bytes, here 4097"
    try "refusal 20, nothing of printing" refuses_alone 20 "$graph" 'EX p0)' "a formula outside the grammar or above the limit"
    try "refusal 12, nothing of operands" refuses_alone 12 "$graph" p1 "refused with 12: an atom that the model hasn't"
    try "refusal 10, nothing of lists" refuses_alone 10 "$graph" "${many}T" "refused with 10: no node, or more than the limit"
    try "refusal 20 tells the grammar" grammar_told
    try "refusal 10, of the model" refuses 10 "${graph/nodes=2/nodes=65}" "${many}T" "the model's own nodes: 1 to 64 nodes, here 65"
    try "refusal 10, of the formula" refuses 10 "$graph" "${many}T" "a formula has at most 64 nodes, here 65"
    try "refusal 10, of a formula with every form" refuses 10 "$graph" "$each" "a formula has at most 64 nodes, here 67"
    try "refusal 12, of the formula" refuses 12 "$graph" 'E(p0 U (p1&p2))' "the formula names p1, and the model has one atom, p0"
    try "refusal 12, of the formula, behind every sign" refuses 12 "$graph" 'AG (p0|(p0>AF p3))' "the formula names p3, and the model has one atom, p0"
    try "refusal 12, of the formula, two atoms" refuses 12 'states=1\natoms=2\n' 'E(p1 U p10)' "the formula names p10, and the model has 2 atoms, p0 to p1"
    try "refusal 12, of the formula, no atom" refuses 12 'states=1\natoms=0\n' p0 "the formula names p0, and the model has no atom"
    try "refusal 12, and a node that isn't asked" own_nodes
    try "refusal 7, ./ask" refuses 7 "${graph/edge=1,1/edge=1,2}" p0 "line 8, edge=1,2: states are 0 to 1"
    try "a caller's variables aren't taken for a formula" settings

    try "./witness, a file and a formula" lists '[E(T U p1)][0]' listing 'E(T U p1)' 0 true
    try "./witness, a file and an EF" lists '[EF p1][0]' listing 'EF p1' 0 true
    try "./witness, an EF alone" lists '[EF p1][0]' 'EF p1' 0 true
    try "./witness, an EF and a count" lists '[EF p1][0]' 'EF p1' 0 possible 5
    try "./witness, a formula alone" lists '[E(T U p1)][0]' 'E(T U p1)' 0 true
    try "./witness, a formula and a count" lists '[E(T U p1)][0]' 'E(T U p1)' 0 possible 5
    try "./witness, a file, a formula and a count" lists '[E(T U p1)][0]' listing 'E(T U p1)' 0 true 5
    try "./witness, a file with a formula as its name" lists '[E(T U p1)][0]' 'E(p0 U p1)' 'E(T U p1)' 0 true
    try "./witness, a file with a formula as its name, and a node" lists '[7][0]' 'E(p0 U p1)' 7 0 true
    try "./witness, a file with a claim as its name" lists '[E(T U p1)][0]' true 'E(T U p1)' 0 true
    try "./witness, - and a formula" lists '[E(T U p1)][0]' - 'E(T U p1)' 0 true
    try "./witness, a word that is no formula, behind a file" lists '[x][0]' listing x 0 true
    try "./witness, a file without a question" misasked "'listing' is a file, and what is asked of it isn't whole" "$witness" listing 0 true
    try "./witness, a file without a question, and a count" misasked "'listing' is a file" "$witness" listing 0 true 5
    try "./witness, a word that is neither" misasked "'x' is neither a file nor a formula" "$witness" x 0 true
    try "./witness, a formula and a wrong claim before a count" misasked "'treu' is neither true nor possible nor false" "$witness" 'E(T U p1)' 0 treu 5
    try "./witness, a formula and a wrong claim" misasked "'treu' is neither true nor possible nor false" "$witness" listing 'E(T U p1)' 0 treu
    try "./witness, a formula and a wrong count" misasked "'true' is no count" "$witness" 'E(T U p1)' 0 true true
    try "./witness, a formula and a wrong state" misasked "'true' is no state" "$witness" listing 'E(T U p1)' true true
    try "./witness, a formula without quotes" misasked "a formula with blanks is put in quotes" "$witness" listing 'E(T' U 'p1)' 0 true
    try "./witness, a formula without quotes, and no file" misasked "a formula with blanks is put in quotes" "$witness" 'E(T' U 'p1)' 0 true
    try "./witness, a formula without quotes, and no state" misasked "a formula with blanks is put in quotes" "$witness" 'E(T' U 'p1)'
    try "./witness, a formula in two pieces" misasked "'p1)' is no state$no_state" "$witness" listing 'E(T U' 'p1)' 0 true
    try "./witness, an EF without quotes" misasked "'p1' is no state$no_state" "$witness" listing EF p1 0 true
    try "./witness, an EF without quotes, and no file" misasked "here are 4 words; a formula with blanks is put in quotes" "$witness" EF p1 0 true
    try "./witness, an EF before its file" misasked "there is no file 'EF p1': the file comes first" "$witness" 'EF p1' listing 0 true
    try "./witness, a formula before its file" misasked "there is no file 'E(T U p1)': the file comes first" "$witness" 'E(T U p1)' listing 0 true
    try "./witness, a formula before its file, and a count" misasked "there is no file 'E(T U p1)': the file comes first" "$witness" 'E(T U p1)' listing 0 true 5
    try "./witness, the longest word of a call" answered 1 answer=20 "at most 4,096 bytes, here 131071" "$longest" 0 true
    try "./witness, refusal 12 of a node" answered 1 answer=12 "an operand that is not earlier" 1 0 true
    no_reason="no question: this formula has no such reason"
    hint="for true or possible of E(f U g) and EF f, for true of EG f, and for false of A(f U g), AF f and AG f, with nothing before it and nothing behind"
    for formula in '!E(T U p0)' '!EF p0' 'AG p0' 'EX EF p0'; do
        try "./witness, another formula, $formula" answered 2 "$no_reason" "$no_reason; there is one $hint" "$formula" 0 true
    done
    try "./witness, refusal 20" answered 1 answer=20 "due there: a formula" 'E(T U )' 0 true
    try "./witness, refusal 10 of the formula" answered 1 answer=10 "a formula has at most 64 nodes, here 67" "E(T U ${many}T)" 0 true
    try "./witness, refusal 12 of the formula" answered 1 answer=12 "the formula names p1, and the model has one atom, p0" 'E(p0 U p1)' 0 true
    try "./witness, refusal 15 of a formula's state" answered 1 answer=15 "states are 0 to 1, here 9" 'E(T U p0)' 9 true
    try "./witness, refusal 15 of an EF's state" answered 1 answer=15 "states are 0 to 1, here 9" 'EF p0' 9 true

    try "bash in place of sh, ./ask and ./witness" new_forms bash
    for awk in mawk gawk original-awk; do
        if command -v "$awk" >/dev/null; then try "$awk in place of awk" with_awk "$awk"; fi
    done
    if command -v busybox >/dev/null; then
        try "busybox's sh in place of sh, ./ask and ./witness" new_forms busybox sh
        try "busybox's awk in place of awk" with_awk busybox awk
    fi
fi
