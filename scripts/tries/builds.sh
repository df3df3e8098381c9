# The first build and the next ones: two at once, broken off, out of date, damaged, nowhere to write.
# shellcheck shell=bash disable=SC2154,SC2034 # names that another of these files sets or reads
first_call() {
    call "$desk" good >"$out"
    good && builds 1 && says "proving and building" && says "of $((${#stand_ins[@]} + 1)): "
}
two_at_once() {
    for round in $(seq "${ROUNDS:-10}"); do
        unbuilt
        : >"$room/calls"
        second=("$desk" good) expected=$answer
        [ $((round % 2)) = 1 ] || { second=("$witness" listed 0 0 true) && expected=$'path=0\nend'; }
        "${second[@]}" >"$room/second" 2>"$room/second.err" &
        call "$desk" good >"$out"
        wait $! || { echo "round $round, the second call: $(tail -n 1 "$room/second.err")"; return 1; }
        { good && builds 1 && [ "$(cat "$room/second")" = "$expected" ]; } || { echo "in round $round"; return 1; }
    done
}
interrupted() { # SIGNAL STATUS, during a build: Ctrl-C reaches the whole group, other signals the script alone
    unbuilt
    set -m
    CALL_MARK=$room "$desk" good >"$out" 2>"$err" &
    set +m
    for _ in $(seq 100); do
        [[ $(at_work) != *'rattle build'* ]] || break
        sleep 0.1
    done
    sleep 0.5
    if [ "$1" = INT ]; then kill -s INT -- "-$!"; else kill -s "$1" "$!"; fi
    wait $!
    got=$?
    status "$2" && none_at_work && no_scratch || return 1
    call "$desk" good >"$out"
    good
}
settle() { # the programs are current
    call "$desk" good >"$out"
    : >"$room/calls"
}
old_date() {
    settle
    echo '// changed' >>"$source"
    touch -d 2001-01-01 "$source"
    call "$desk" good >"$out"
    good && builds 1
}
new_date() {
    settle
    touch "$source"
    call "$desk" good >"$out"
    good && builds 0
}
damaged() { # COMMAND on the program
    settle
    "$@" "$house/crates/desk/out/desk"
    call "$desk" good >"$out"
    good && builds 1
}
one_more() { # a checkout in which another program wasn't there at the last build
    settle
    rm -f "$house/crates/${stand_ins[-1]}/out/${stand_ins[-1]}"
    sed -i "/\/${stand_ins[-1]}\$/d" "$house/target/built"
    call "$desk" good >"$out"
    good && builds 1 && [ "$(wc -l <"$house/target/built")" = $((${#stand_ins[@]} + 1)) ]
}
spoil() { printf x | dd of="$1" bs=1 seek=4000 conv=notrunc 2>/dev/null; }
empty() { : >"$1"; }
unproved() {
    cp "$source" "$room/source"
    echo 'fn main() {}' >>"$source"
    call "$desk" good >"$out"
    cp "$room/source" "$source"
    status 3 && says "proved" && no_scratch || return 1
    call "$desk" good >"$out"
    good
}
no_target() {
    mv "$house/target" "$room/target"
    touch "$house/target"
    call "$desk" good >"$out"
    rm -f "$house/target"
    mv "$room/target" "$house/target"
    status 3 && says "can't be written" && no_scratch
}
locked_target() {
    settle
    chmod -R a-w "$house/target"
    as_nobody "$desk" good >"$out"
    chmod -R u+w "$house/target"
    good
}
locked_unbuilt() {
    unbuilt
    chmod -R a-w "$house/target"
    as_nobody "$desk" good >"$out"
    chmod -R u+w "$house/target"
    status 3 && says "can't be written" && no_scratch || return 1
    call "$desk" good >"$out"
    good
}

try "the first call proves, builds and says how far it is" first_call
try "two first calls at once, ${ROUNDS:-10} rounds, one build each" two_at_once
try "Ctrl-C during the first build, and the call after it" interrupted INT 130
try "TERM during the first build, and the call after it" interrupted TERM 143
try "a source changed, with an old date" old_date
try "a source with a new date, unchanged" new_date
try "a program with a byte changed" damaged spoil
try "a program emptied" damaged empty
try "a program removed" damaged rm
try "a program more than at the last build" one_more
try "a source that isn't proved, and the call after it" unproved
try "a target that can't be made" no_target
try "a target that can't be written, with programs that are current" locked_target
try "a target that can't be written, and nothing built" locked_unbuilt
