# How ./ask, ./desk, ./witness and ./label run their program and tell its answer.
# shellcheck shell=sh disable=SC2154,SC2034 # names that another of these files sets or reads

# Programs are for x86-64. They get no environment: it could only mislead their loader. They are started from the checkout, since env takes a word
# with a = in it, as the checkout's own path may have one, for a setting.
start() { # ARGUMENTS
    cd -- "$root" && exec env -i "$(place_of "$name")" "$@"
}

# What awk does to a line of the answer before it passes on.
telling=''

# With --only-named the labels of atoms that the formula doesn't name are left out before anything is judged: the program is given the text
# without them and the formula with its atoms numbered as they are then, and in the answer they have their own numbers again. What is refused
# anyway stays as it is.
only_named() {
    look -f "$root/scripts/named.awk" >"$own/named" 2>"$own/said"
    case $? in 0) ;; 1) return ;; *) no_room ;; esac
    { [ "$(wc -l <"$own/named")" = "$(wc -l <"$model")" ] && [ "$(wc -l <"$own/kept")" = 2 ]; } || no_room
    { IFS= read -r question && IFS= read -r atoms; } <"$own/kept"
    judged=$own/named
    telling="$(cat "$root/scripts/formula.awk")
        BEGIN { n = split(\"$atoms\", own, \" \"); for (i = 1; i <= n; i++) to[i - 1] = own[i] }
        /^part=/ { \$0 = renumbered(\$0, to) }"
}

# The answer passes on as it comes, through an awk that keeps something of it in $own/lines. Nothing counts as answered that wasn't written.
pass() { # AWK-RULES ARGUMENTS
    rules=$1
    shift
    mkfifo "$own/raw" "$own/passed" || no_room
    starting=yes
    start "$@" <"$judged" >"$own/raw" 2>"$own/said" &
    program=$!
    kept=$own/lines awk "$telling { print } $rules" <"$own/raw" >"$own/passed" &
    passer=$!
    cat <"$own/passed" &
    writer=$!
    at_work="$program $passer $writer"
    started
    wait "$writer" 2>/dev/null
    written=$?
    # what can't be written any more needn't be found
    [ "$written" -eq 0 ] || kill -s KILL "$program" "$passer" 2>/dev/null
    wait "$passer" 2>/dev/null
    passed=$?
    wait "$program" 2>/dev/null
    ran=$?
    at_work=''
    [ "$written" -ne 141 ] || exit 141 # who read the answer has gone
    [ "$written" -eq 0 ] || die 3 "the answer can't be written"
    # an awk that had no room ended the program too, by taking nothing more
    [ "$passed" -eq 0 ] || no_room
    # what the program says where nobody takes the answer any more is no news
    [ "$ran" -eq 0 ] || { cat "$own/said" >&2; die 3 "the program failed with status $ran"; }
    [ -s "$own/lines" ] || no_room
}

# The answer's first line is kept in $first and its last in $last.
run() { # ARGUMENTS
    # shellcheck disable=SC2016 # a $ of awk's
    pass '{ last = $0 } NR == 1 { first = $0 } END { print first "\n" last >ENVIRON["kept"] }' "$@"
    { IFS= read -r first && IFS= read -r last; } <"$own/lines"
    [ -n "$first" ] || die 3 "the program wrote no answer"
}

# What a number means. Who typed a formula has written no list of nodes, and nothing is printed from one.
meaning() { # NUMBER
    case ${formula+formula}:$1 in
        formula:10) words="no node, or more than the limit, in the model's text or in the formula" ;;
        formula:12) words="an atom that the model hasn't" ;;
        formula:22) words="an atom of the model that the formula doesn't name" ;;
        *)
            words=$(rule Refusals "$1")
            words=${words%%; printing:*}
            ;;
    esac
    echo "${words:-docs/RULES.md has no such number}"
}

# What a number means, and what it was in this model or this formula.
explain() { # NUMBER [AWK-SETTINGS]
    number=$1
    shift
    say "refused with $number: $(meaning "$number")"
    cause=$(find_cause "$number" "$@")
    [ -z "$cause" ] || say "$cause"
    [ "$number" != 20 ] || grammar >&2
}

find_cause() { # NUMBER [AWK-SETTINGS]
    number=$1
    shift
    # nothing is said of a formula that there is no room for
    look -v number="$number" "$@" -f "$root/scripts/cause.awk" || return 0
}

# The model's text as an awk looks at it that knows the limits and the formula.
look() { # AWK-SETTINGS-AND-FILE
    [ -z "${formula+yes}" ] || { printf '%s\n' "$formula" >"$own/formula"; } 2>/dev/null || return 2
    ended=$(tail -c 1 <"$model" | wc -l)
    size=$(wc -c <"$model")
    [ "$size" -lt "$most_kept" ] || size="$size or more"
    tr '\000' '?' <"$model" | asked=$own/formula kept=$own/kept awk -v ended="$ended" -v size="$size" -v by_formula="${formula+yes}" \
        -v most_states="$(most states)" -v most_atoms="$(most atoms)" -v most_transitions="$(most transitions)" -v most_nodes="$(most nodes)" \
        -v most_text="$(most text)" -v most_formula="$(most formula)" -v most_kind="$(most kind)" "$@" -f "$root/scripts/formula.awk"
}
