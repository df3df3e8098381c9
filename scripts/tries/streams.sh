# Input and output: full, closed, unreadable, piped, endless.
# shellcheck shell=bash disable=SC2154,SC2034 # names that another of these files sets or reads
full_device() { call "$desk" good >/dev/full; status 3 && says "can't be written" && no_scratch; }
full_listing() { call "$witness" listed 0 0 true >/dev/full; status 3 && says "can't be written" && no_scratch; }
full_help() { call "$desk" --help >/dev/full; status 3; }
closed_output() { call "$desk" good >&-; status 3 && says "closed" && no_scratch; }
closed_input() { call "$desk" <&- >"$out"; status 2 && says "closed" && wrote "" && no_scratch; }
closed_all() { "$desk" good <&- >&- 2>&-; got=$?; status 3 && no_scratch; }
closed_words() { "$desk" refused >"$out" 2>&-; got=$?; status 1 && wrote answer=5 && no_scratch; }
reader_gone() { # STATUS SETTING
    (eval "$2"; sleep 0.5; "$desk" good 2>"$err"; echo $? >"$room/status") | true
    got=$(cat "$room/status")
    status "$1" && no_scratch
}
directory_in() { call "$desk" <"$room" >"$out"; status 2 && says "irectory" && wrote "" && no_scratch; }
directory_named() { call "$desk" "$room" >"$out"; status 2 && says "irectory" && wrote "" && no_scratch; }
unreadable() { # NAME
    cp good "$1"
    chmod 000 "$1"
    as_nobody "$desk" "$1" >"$out"
    status 2 && says "can't be read" && no_scratch
}
not_there() { call "$desk" nowhere >"$out"; status 2 && says "nowhere" && no_scratch; }
piped() { call "$desk" - < <(cat good) >"$out"; good; }
other_number() { call "$desk" /dev/fd/4 4<good </dev/null >"$out"; good; }
closed_named() { call "$desk" /dev/stdin <&- >"$out"; status 2 && says "closed" && wrote "" && no_scratch; }
no_room() {
    got=$( (ulimit -f 0; "$desk" good 2>&1 | cat >/dev/null; echo "${PIPESTATUS[0]}") 2>/dev/null)
    status 3 && no_scratch
}
help_unread() {
    (sleep 0.3; "$desk" --help; echo $? >"$room/status") | true
    got=$(cat "$room/status")
    status 141
}
device() { call "$desk" /dev/stdin <good >"$out"; good; }
named_pipe() {
    [ -p pipe ] || mkfifo pipe
    cat good >pipe &
    call "$desk" pipe >"$out"
    good
}
endless() { call "$desk" < <(yes '#answer=18') >"$out"; status 1 && [ "$(head -n 1 "$out")" = answer=18 ] && no_scratch; }

printf 'states=1\natoms=0\ninit=0\n#answer=5\n' >refused
try "a full device" full_device
try "a full device, ./witness" full_listing
try "a full device, help" full_help
try "closed output" closed_output
try "closed input" closed_input
try "all three closed" closed_all
try "closed error output, a refusal" closed_words
try "a reader that has gone" reader_gone 141 :
try "a reader that has gone, and nobody is told" reader_gone 3 "trap '' PIPE"
try "a directory as input" directory_in
try "a directory as the file" directory_named
try "a file that can't be read" unreadable secret
try "a file that can't be read, by a misleading name" unreadable "error writing"
try "a file that isn't there" not_there
try "a pipe" piped
try "a named pipe" named_pipe
try "/dev/stdin as the file" device
try "/dev/stdin as the file, closed" closed_named
try "a descriptor of the caller's as the file" other_number
try "no room for temporary files" no_room
try "help, and a reader that has gone" help_unread
try "an endless text" endless
