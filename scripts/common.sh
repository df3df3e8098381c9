# What ./ask, ./desk, ./witness and ./label share: how they speak and end, and how their input is taken in. They read it after setting `name`
# and `root`.
# shellcheck shell=sh disable=SC2154,SC2034,SC3013 # names that another of these files sets or reads; -ef, which every sh of Linux has
LC_ALL=C
export LC_ALL
unset CDPATH
umask u+rwx
set +m

say() { printf '%s: %s\n' "$name" "$*" >&2; }

die() { # STATUS WORDS
    status=$1
    shift
    say "$@"
    exit "$status"
}

wrong() { die 2 "$*; ./$name --help explains the use"; }

# A closed descriptor is remembered, and no file that is opened later takes its number.
(exec 3>&2) || exec 2>/dev/null
input=open output=open
(exec 3<&0) 2>/dev/null || { input=closed && exec </dev/null; }
(exec 3>&1) 2>/dev/null || { output=closed && exec >/dev/null; }

needs_output() { [ "$output" = open ] || die 3 "standard output is closed"; }

# What is ended and removed however the script ends: processes, the prover's process group, the temporary folder. No process has anything to
# put in order: what the prover leaves half done has no stamp and is proved again.
at_work='' group='' scratch=''

# shellcheck disable=SC2086 # lists of numbers
clear_up() {
    [ -z "$at_work" ] || kill -s KILL $at_work 2>/dev/null
    [ -z "$group" ] || kill -s KILL -- "-$group" 2>/dev/null || kill -s KILL "$group" 2>/dev/null
    [ -z "$at_work$group" ] || wait $at_work $group 2>/dev/null
    [ -z "$scratch" ] || rm -rf "$scratch"
}

# Only a script that came to its end ends with 0: a shell that loses its way when a signal comes doesn't.
finished=no

leave() {
    left=$?
    clear_up
    [ "$left" -ne 0 ] || [ "$finished" = yes ] || exit 3
}

# After a signal all is cleared up, and who called sees the signal itself; some shells don't end by QUIT. A signal between the start of a
# process and the note of its number waits for the note.
signals='HUP INT QUIT PIPE ALRM TERM USR1 USR2 XCPU XFSZ' starting=no pending=''

signalled() { # SIGNAL
    if [ "$starting" = yes ]; then
        pending=$1
        return
    fi
    # shellcheck disable=SC2086 # a list of words
    trap '' $signals
    clear_up
    trap - EXIT "$1"
    kill -s "$1" "$$"
    exit 131
}

started() {
    starting=no
    [ -z "$pending" ] || signalled "$pending"
}

trap leave EXIT
for signal in $signals; do
    # shellcheck disable=SC2064 # the name as it is now
    trap "signalled $signal" "$signal"
done

help() {
    needs_output
    usage
    told=$?
    finished=yes
    case $told in 0 | 141) exit "$told" ;; esac
    exit 3
}

# rt's own temporary files go to the folder itself, and all else into own/.
make_scratch() {
    scratch=$(mktemp -d 2>/dev/null) || { scratch='' && die 3 "no temporary folder can be made in ${TMPDIR:-/tmp}"; }
    whole=$(cd -- "$scratch" && pwd -P) && scratch=$whole
    own=$scratch/own model=$scratch/own/model judged=$scratch/own/model
    { mkdir -m 700 "$own" && true >"$model" && true >"$own/said"; } 2>/dev/null || no_room
}

no_room() { die 3 "the temporary folder $scratch can't be used, or has no room"; }

# What is taken in, and how it is copied. No model that is judged comes near to this many bytes; what is longer is cut here, and the program
# refuses it for its length.
taken='the model' most_kept=1048576
copy() { exec head -c "$most_kept"; }

can_be_read() { # FILE
    case $1 in
        - | /dev/stdin | /dev/fd/0 | /proc/self/fd/0) [ "$input" = open ] || die 2 "standard input is closed" ;;
        *) [ -e "$1" ] || die 2 "there is no file '$1', or it can't be reached" ;;
    esac
}

# The input is copied to $model, so that what is judged and what is explained are one text. Reading goes on beside the script, which a
# signal could not end otherwise; a process beside it has an empty standard input, so the caller's own goes by another number.
take_in() { # FILE
    can_be_read "$1"
    make_scratch
    from=$1 starting=yes
    if [ "$1" = - ]; then
        from='standard input'
        [ ! -t 0 ] || say "reading $taken from the terminal; Ctrl-D on a line of its own ends it"
        exec 4<&0
        copy 2>"$own/said" <&4 >"$model" &
    elif [ "$1" -ef /dev/stdin ]; then
        exec 4<&0
        (copy <"$1") 2>"$own/said" <&4 >"$model" &
    else
        (copy <"$1") 2>"$own/said" >"$model" &
    fi
    at_work=$!
    started
    wait "$at_work" 2>/dev/null
    got=$?
    at_work=''
    exec 4<&-
    [ "$got" -ne 0 ] || return 0
    case $(cat "$own/said") in '' | 'head: '*writ* | 'cat: '*writ*) no_room ;; esac
    die 2 "$from can't be read: $(sed -n '$s/.*: //p' "$own/said")"
}

# The formula that is asked, where one is; the caller's environment has no say in it.
unset formula

# As every formula begins, or its first word without quotes. Whether it is one, the program says.
begins_formula() { # WORD
    case $1 in T | p[0-9]* | '!'* | '('* | [EA][XFG] | [EA][XFG]' '* | [EA]'('*) ;; *) return 1 ;; esac
}

# A formula, or its first word without quotes, in the place of the file.
is_formula_for_file() { # WORD
    [ ! -e "$1" ] && begins_formula "$1"
}

file_first() { # WORD
    wrong "there is no file '$1': the file comes first, and then the formula in quotes"
}

# Blanks stand only around U and behind a prefix of two letters: of the pieces of a formula without quotes, one begins or ends there.
quotes="a formula with blanks is put in quotes"
in_pieces() { # WORDS
    for word; do
        case $word in U | 'U '* | *' U' | [EA][XFG] | *['!(&|> '][EA][XFG]) return 0 ;; esac
    done
    return 1
}

# In a call without a file, a word that may be a file is one whose question was forgotten, and no model is waited for.
not_forgotten() { # WORD
    [ ! -e "$1" ] || wrong "'$1' is a file, and what is asked of it isn't whole; where it is the formula, write - before it"
    begins_formula "$1" || wrong "'$1' is neither a file nor a formula"
}

# A cell of a table in the rules: of the section, in the row that begins with the key.
rule() { # SECTION KEY
    awk -F ' *[|] *' -v section="$1" -v key="$2" '/^## / { on = $0 == "## " section } on && $2 == key { print $3; exit }' <"$root/docs/RULES.md"
}

# A limit as the rules write it, 1,024 say.
most() { rule Limits "$1"; }

# The grammar of a formula as the rules have it, a line for each form. A | within a cell has a backslash before it there.
grammar() {
    awk -F ' *[|] *' '
        /^## / { on = $0 == "## Formulas" }
        { gsub(/\\[|]/, "\001") }
        on && $2 ~ /^`/ { gsub("`", "", $2); gsub("\001", "|", $2); printf "  %-12s%s\n", $2, $3 }' <"$root/docs/RULES.md"
    echo "  f and g are formulas again; there is one blank where it is shown, and nowhere else"
}

. "$root/scripts/build.sh"
. "$root/scripts/answer.sh"
