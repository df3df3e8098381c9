# Atoms that a formula doesn't name: what is said of them, and what --only-named leaves out.
# shellcheck shell=bash disable=SC2154,SC2034 # names that another of these files sets or reads
# The stand-in writes what it is given from the # on, its first two words among it.
labelled='states=2\natoms=3\ninit=#answer=0\nlabel=TUF\nlabel=FTU\nwords=%\npart=(p1&!p0) row=TF\nmodel=T\n'
answers() { # LABELS WORDS-OF-THE-PROGRAM PART ARGUMENTS, the model on standard input
    printf '%b' "$labelled" >labelled
    call "$ask" "${@:4}" <labelled >"$out"
    status 0 && wrote "$(printf 'answer=0\n%b\nwords=%s\n%s\nmodel=T' "$1" "$2" "$3")" && no_scratch
}
stays() { answers 'label=TUF\nlabel=FTU' "[$1][]" 'part=(p1&!p0) row=TF' --only-named - "$1"; } # FORMULA
given() { # MODEL: what is no model's text, or too long, is given as it is
    printf '%b' "$1" >labelled
    call "$ask" --only-named labelled p1 >"$out"
    wrote "$(printf '%b' "${1#*#}" | sed 's/%/[p1][]/')" && no_scratch
}
filled() { # BYTES LABELS WORDS-OF-THE-PROGRAM: a text of so many
    printf '%b' 'states=2\natoms=3\ninit=#answer=0\nlabel=TUF\nlabel=FTU\nwords=%\n' >labelled
    written=$(wc -c <labelled)
    printf "%$(($1 - written - 9))s\nmodel=T\n" '' | tr ' ' x >>labelled
    call "$ask" --only-named labelled p1 >"$out"
    status 0 && wrote_but xx "$(printf 'answer=0\n%b\nwords=%s\nmodel=T' "$2" "$3")" && [ "$(wc -c <labelled)" = "$1" ] && no_scratch
}
wrote_but() { [ "$(grep -v "^$1" "$out")" = "$2" ] || { echo "wrote: $(cut -c 1-40 "$out" | head -n 9 | tr '\n' ' ')"; return 1; }; }
listed() { # WORDS-OF-THE-PROGRAM ARGUMENTS, the model on standard input
    printf 'states=1\natoms=2\ninit=1\nlabel=TU\n#path=%%\nend\n' >labelled
    call "$witness" "${@:2}" <labelled >"$out"
    status 0 && wrote "path=$1"$'\nend' && no_scratch
}
no_room_for_it() { # a folder that is full: nothing is judged on half a text
    answers '' '' '' --only-named p1 >/dev/null
    mkdir -p "$room/other"
    printf '#!/bin/sh\ncase "$*" in *named.awk*) exit 2 ;; esac\nexec %s "$@"\n' "$(command -v awk)" >"$room/other/awk"
    chmod +x "$room/other/awk"
    PATH=$room/other:$PATH call "$ask" --only-named p1 <labelled >"$out"
    status 3 && wrote "" && no_scratch
}
named_by() { # COMMAND: with another shell or another awk
    printf '%b' "$labelled" >labelled
    call "$@" "$ask" --only-named --parts '(p2&!p0)' <labelled >"$out"
    status 0 && wrote $'answer=0\nlabel=TF\nlabel=FU\nwords=[(p1&!p0)][parts]\npart=(p2&!p0) row=TF\nmodel=T' || return 1
    printf '%b#answer=22\n' 'states=1\natoms=4\n' >refused
    call "$@" "$ask" refused '(p0&p2)' >"$out"
    status 1 && says "the formula doesn't name p1, p3, and the model has 4 atoms" && no_scratch
}
named_with() { # AWK
    mkdir -p "$room/other"
    printf '#!/bin/sh\nexec %s "$@"\n' "$*" >"$room/other/awk"
    chmod +x "$room/other/awk"
    PATH=$room/other:$PATH named_by nice -n 0
}

if [ -e "$house/scripts/named.awk" ]; then
    lost="the model has 4 atoms, p0 to p3; with --only-named it is judged without them"
    try "refusal 22, of the formula" refuses 22 'states=1\natoms=4\n' '(p0&p2)' "the formula doesn't name p1, p3, and $lost"
    try "refusal 22, every atom" refuses 22 'states=1\natoms=4\n' 'AG T' "the formula doesn't name p0, p1, p2, p3, and $lost"
    try "refusal 22, p1 isn't p11" refuses 22 'states=1\natoms=12\n' 'EX p11' "doesn't name p0, p1, p2, p3, p4, p5, p6, p7, p8, p9, p10, and the model"
    try "refusal 22, nothing of nodes" refuses_alone 22 'states=1\natoms=1\n' T "refused with 22: an atom of the model that the formula doesn't name"
    try "./witness, refusal 22 of a formula" answered 1 answer=22 "the formula doesn't name p0, and the model has one atom, p0" 'EF T' 0 true
    try "./witness, refusal 22 of a node" answered_of "${graph/node=1,0,0/node=0,0,0}" 1 answer=22 "no node names atom 0" 1 0 true

    try "--only-named, the last left out" answers 'label=TU\nlabel=FT' '[(p1&!p0)][]' 'part=(p1&!p0) row=TF' --only-named '(p1&!p0)'
    try "--only-named, the one between left out" answers 'label=TF\nlabel=FU' '[(p1&!p0)][]' 'part=(p2&!p0) row=TF' --only-named '(p2&!p0)'
    try "--only-named, the first left out" answers 'label=UF\nlabel=TU' '[E(p1 U (p0&p1))][]' 'part=(p2&!p1) row=TF' --only-named 'E(p2 U (p1&p2))'
    try "--only-named, all left out" answers 'label=\nlabel=' '[EX T][]' 'part=(p&!p) row=TF' --only-named 'EX T'
    try "--only-named with --parts" answers 'label=TF\nlabel=FU' '[(p0>p1)][parts]' 'part=(p2&!p0) row=TF' --parts '(p0>p2)' --only-named
    try "--only-named, all are named" stays '(p0&(p1&p2))'
    try "--only-named, an atom that the model hasn't" stays '(p0&p3)'
    try "--only-named, no formula" stays '(p0&p1'
    try "--only-named, an empty formula" stays ''
    try "without --only-named" answers 'label=TUF\nlabel=FTU' '[(p2&!p0)][]' 'part=(p1&!p0) row=TF' '(p2&!p0)'
    for wrong in 'label=TUF/label=TU' 'label=FTU/label=FTx' 'label=FTU/lable=FTU' 'label=FTU\n/' 'states=2/states=02' 'states=2/states=9' 'atoms=3/atoms=03' 'atoms=3/atoms=33'; do
        try "--only-named, a text with $wrong" given "${labelled/"${wrong%%/*}"/${wrong#*/}}"
    done
    try "--only-named, no last line feed" given "${labelled%??}"
    try "--only-named, a text at the limit" filled 32768 'label=U\nlabel=T' '[p0][]'
    try "--only-named, a text above the limit" filled 32769 'label=TUF\nlabel=FTU' '[p1][]'
    try "--only-named, no room" no_room_for_it
    try "./witness, --only-named" listed '[EF p0][0]' --only-named - 'EF p1' 0 true
    try "./witness, --only-named without a file" listed '[E(T U p0)][0]' --only-named 'E(T U p1)' 0 possible 5
    try "./witness, --only-named and a node" misasked "--only-named goes with a formula, and '7' is a node" "$witness" --only-named labelled 7 0 true
    try "bash in place of sh, --only-named" named_by bash
    for awk in mawk gawk original-awk; do
        if command -v "$awk" >/dev/null; then try "$awk in place of awk, --only-named" named_with "$awk"; fi
    done
    if command -v busybox >/dev/null; then
        try "busybox's sh in place of sh, --only-named" named_by busybox sh
        try "busybox's awk in place of awk, --only-named" named_with busybox awk
    fi
fi
