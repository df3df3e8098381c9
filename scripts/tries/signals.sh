# Signals during a run, to the script alone: it ends at once, and leaves neither a process nor a folder.
# shellcheck shell=bash disable=SC2154,SC2034 # names that another of these files sets or reads
send() { # SIGNAL STATUS, to the last process that was started: it ends at once, and with this status
    sleep 1
    kill -s "$1" $!
    for _ in 1 2 3 4 5 6 7 8 9 10; do
        kill -0 $! 2>/dev/null || break
        sleep 0.3
    done
    kill -s KILL $! 2>/dev/null
    exec 7>&-
    wait $! 2>/dev/null
    got=$?
    status "$2" && none_at_work && no_scratch
}
pipe() { # a pipe that nobody else reads or writes, as descriptor 7
    rm -f "$room/pipe"
    mkfifo "$room/pipe"
    exec 7<>"$room/pipe"
}
blocked_output() { # SIGNAL STATUS [SHELL]: nobody takes the answer
    pipe
    head -c 65536 /dev/zero >&7
    # a job of its own, which doesn't ignore QUIT
    set -m
    CALL_MARK=$room ${3:+"$3"} "$desk" good >&7 2>"$err" &
    set +m
    send "$1" "$2"
}
blocked_input() { # SIGNAL STATUS: the model doesn't come
    pipe
    CALL_MARK=$room "$desk" <&7 >"$out" 2>"$err" &
    send "$1" "$2"
}
# the script is made to get the signal where it has started a process and not yet noted its number
at_a_start() { # FILE OF SCRIPTS
    cp "$house/scripts/$1" "$room/kept"
    sed -i 's/^    \([a-z_]*=$!\)/    kill -s TERM $$; \1/' "$house/scripts/$1"
    CALL_MARK=$room timeout -s KILL 20 "$desk" good 2>"$err" | cat >"$out"
    got=${PIPESTATUS[0]}
    cp "$room/kept" "$house/scripts/$1"
    status 143 && none_at_work && no_scratch
}
heard() { # the beginning of scripts/faults, where signals are ignored
    { sed -n '/^if .*default-signal/,/^fi$/p' "$here/faults" && echo 'trap -p HUP INT QUIT USR1'; } >"$room/again"
    (trap '' HUP INT QUIT USR1 && exec env -u HEARING bash "$room/again") >"$out"
    wrote ""
}

try "TERM right behind the start of the program" at_a_start answer.sh
try "TERM right behind the start of reading" at_a_start common.sh
try "TERM while nobody takes the answer" blocked_output TERM 143
try "HUP while nobody takes the answer" blocked_output HUP 129
try "USR1 while nobody takes the answer" blocked_output USR1 138
try "QUIT while nobody takes the answer, bash" blocked_output QUIT 131 bash
try "TERM while the model doesn't come" blocked_input TERM 143
try "HUP while the model doesn't come" blocked_input HUP 129
if env --default-signal=HUP true 2>/dev/null; then try "signals that the caller ignores count in these cases" heard; fi
