# What is asked of a call, and how a case is tried and counted.
# shellcheck shell=bash disable=SC2154,SC2034 # names that another of these files sets or reads
out=$room/out err=$room/err
call() { # COMMAND: its status in $got
    timeout 600 "$@" 2>"$err"
    got=$?
}
status() { [ "$got" = "$1" ] || { echo "ended with $got and not $1"; return 1; }; }
says() { grep -qF -- "$1" "$err" || { echo "doesn't say: $1; says: $(tail -n 2 "$err" | tr '\n' ' ')"; return 1; }; }
wrote() { [ "$(cat "$out")" = "$1" ] || { echo "wrote: $(head -c 200 "$out" | tr '\n' ' ')"; return 1; }; }
no_scratch() { [ -z "$(ls -A "$room/temporary")" ] || { echo "left: $(find "$room/temporary" | head -n 3 | tr '\n' ' ')"; rm -rf "$room"/temporary/*; return 1; }; }
builds() { # COUNT: a build is a run of each program
    runs=$(grep -c '^run$' "$room/calls")
    [ "$runs" = $(($1 * ${#stand_ins[@]})) ] || { echo "$runs runs of ${#stand_ins[@]} programs, and not $1 builds"; return 1; }
}
at_work() { # the processes of a call, by the mark in their environment or by their words: number and words
    for process in /proc/[0-9]*; do
        number=${process#/proc/}
        case $number in "$$" | "$BASHPID") continue ;; esac
        words=$(tr '\0' ' ' <"$process/cmdline") || continue
        case $words in
            *scripts/faults* | '') ;;
            *"$room"*) echo "$number $words" ;;
            *) grep -qzxF "CALL_MARK=$room" "$process/environ" && echo "$number $words" ;;
        esac
    done 2>/dev/null
}
end_all() { at_work | while read -r number _; do kill -s KILL "$number" 2>/dev/null; done; }
none_at_work() {
    for _ in 1 2 3 4 5 6 7 8 9 10; do
        [ -n "$(at_work)" ] || return 0
        sleep 0.3
    done
    echo "still at work: $(at_work | head -n 2 | cut -c 1-150 | tr '\n' ' ')"
    end_all
    return 1
}
good() { status 0 && wrote "$answer" && no_scratch; }
unbuilt() {
    rm -f "$house"/target/built*
    for program in "${stand_ins[@]}"; do rm -f "$house/crates/$program/out/$program" "$house/crates/$program/out/$program.stamp"; done
}
as_nobody() { # COMMAND
    if [ "$(id -u)" = 0 ]; then call setpriv --reuid=65534 --regid=65534 --clear-groups "$@"; else call "$@"; fi
}

try() { # NAME FUNCTION [WORDS]
    name=$1
    shift
    tried=$((tried + 1))
    : >"$room/calls"
    if why=$("$@" 2>&1); then
        echo "ok     $name"
    else
        faults=$((faults + 1))
        echo "FAULT  $name: $why"
    fi
}
