# How ./ask, ./desk, ./witness and ./label come to their programs: all are proved and built in one go, by one call at a time.
# shellcheck shell=sh disable=SC2154,SC2034,SC2086 # names that another of these files sets or reads; $programs is a list of words
programs='ask desk witness label'
record=$root/target/built

# Where rt leaves a program that it has proved and built.
place_of() { echo "crates/$1/out/$1"; } # PROGRAM

find_kit() {
    command -v rt >/dev/null 2>&1 || die 3 "rt isn't there: install the Rattle kit and put its folder bin on the PATH"
    { kit=$(rt version) && machine=$(uname -m); } || die 3 "rt doesn't say what kit it is"
}

# What a build is made from, in $sources: the kit, the machine and every file of the crates, whatever its date; not what rt makes of them.
read_sources() {
    files=$(cd -- "$root" && find crates.txt crates \( -name must-fail -o -name out \) -prune -o -type f -exec sha256sum {} +) ||
        die 3 "the sources can't be read"
    sum=$(printf '%s\n' "$files" | sort | sha256sum)
    sources="$kit, $machine, ${sum%% *}"
}

sums() { # PROGRAMS
    (cd -- "$root" 2>/dev/null && for program; do sha256sum "$(place_of "$program")" 2>/dev/null || exit; done)
}

# The record of the last build says of which sources it was, and what the programs were then.
current() {
    read_sources
    [ -f "$record" ] || return 1
    was=$(cat "$record")
    now=$(echo "$sources" && sums $programs) || return 1
    [ "$was" = "$now" ]
}

# Notes that the programs, of which $now has the sums, were proved and built of $sources.
note_built() { { printf '%s\n%s\n' "$sources" "$now" >"$record.new" && mv "$record.new" "$record"; } 2>/dev/null; }

# One call at a time builds in a checkout; the lock is the checkout's own folder, and falls with the last process that holds it.
lock() {
    exec 9<"$root"
    if ! command -v flock >/dev/null 2>&1; then
        say "flock isn't there, so nothing keeps two calls from building at once"
        return
    fi
    flock -n 9 && return
    say "another call is proving and building here; this one waits for it"
    starting=yes
    flock 9 &
    at_work=$!
    started
    wait "$at_work" || say "the checkout can't be locked, so nothing keeps two calls from building at once"
    at_work=''
}

# How many crates the programs are made of, themselves included.
crates_needed() {
    awk -v wanted="$programs" '
        function visit(crate, part, n, i) {
            if (!(crate in uses) || crate in seen) return
            seen[crate] = 1
            count++
            n = split(uses[crate], part, " ")
            for (i = 1; i <= n; i++) visit(part[i])
        }
        { sub(/#.*/, "") }
        /:/ { crate = $0; sub(/:.*/, "", crate); gsub(/[ \t]/, "", crate); sub(/[^:]*:/, ""); uses[crate] = $0 }
        END { n = split(wanted, list, " "); for (i = 1; i <= n; i++) visit(list[i]); print count + 0 }' <"$root/crates.txt"
}

# What the prover says, kept, and how far it is, told crate by crate. Of a crate that is as it was it says nothing.
tell_progress() {
    so_far=0 crate=''
    while IFS= read -r line || [ -n "$line" ]; do
        printf '%s\n' "$line" >>"$own/said"
        case $line in
            'crate '*': modules '*)
                crate=${line#crate }
                crate=${crate%%: *}
                ;;
            'logic=proved '*)
                so_far=$((so_far + 1))
                say "$so_far of $needed: $crate is proved"
                ;;
        esac
    done
}

# rt proves what has changed, and links each program anew that isn't the one that it linked last; then it runs it, here on nothing.
build() {
    if [ -f "$record" ]; then
        say "the sources or the programs aren't those of the last build: proving and building what has changed"
    else
        say "proving and building ./ask, ./desk, ./witness and ./label, which takes a few minutes the first time"
    fi
    { mkdir -p "$root/target" 2>/dev/null && [ -w "$root/target" ]; } || die 3 "$root/target can't be written"
    needed=$(crates_needed)
    mkfifo "$own/progress" || no_room
    starting=yes
    # shellcheck disable=SC2016 # the inner shell's own
    (cd -- "$root/crates" && TMPDIR=$scratch && export TMPDIR && exec setsid sh -c '
        for program; do
            (cd -- "$program" && exec rt run) </dev/null 2>&1 >/dev/null || exit
        done' sh $programs) </dev/null >"$own/progress" 2>&1 &
    group=$!
    tell_progress <"$own/progress" &
    at_work=$!
    started
    wait "$group" 2>/dev/null
    built=$?
    group=''
    wait "$at_work" 2>/dev/null
    at_work=''
    if [ "$built" -ne 0 ] || ! now=$(sums $programs); then
        cat "$own/said" >&2
        die 3 "the programs aren't proved or can't be built; what the prover said stands above"
    fi
    note_built || die 3 "$root/target can't be written"
}

# Once the lock is held it is looked again: whoever held it before may have built.
prepare() {
    find_kit
    current && return
    lock
    current || build
    exec 9<&-
}
