# Names, options, links, settings and shells.
# shellcheck shell=bash disable=SC2154,SC2034 # names that another of these files sets or reads
named() { # NAME
    cp good "./$1"
    call "$desk" "$1" </dev/null >"$out"
    good
}
equals_refused() {
    printf 'states=1\nwrong\n#answer=19\n' >a=b
    call "$desk" a=b </dev/null >"$out"
    status 1 && says "line 2 breaks the form" && no_scratch
}
dashed() { cp good ./-model; call "$desk" -- -model >"$out"; good; }
empty_name() { call "$desk" "" <good >"$out"; status 2 && says "no file" && no_scratch; }
dashes_alone() { call "$desk" -- <good >"$out"; good; }
wrong_option() { call "$desk" -x <good >"$out"; status 2 && says "-x" && wrote ""; }
linked() {
    mkdir -p "$room/links"
    ln -sf "../${house##*/}/desk" "$room/links/once"
    ln -sf once "$room/links/twice"
    call "$room/links/twice" good >"$out"
    good
}
cd_path() {
    cd "$room" || return 1
    CDPATH=$room:. call "${house##*/}/desk" models/good >"$out"
    good
}
no_tmp() { TMPDIR=$room/nowhere call "$desk" good >"$out"; status 3 && says "$room/nowhere"; }
no_tmp_help() { TMPDIR=$room/nowhere call "$desk" --help >"$out"; status 0 && grep -q usage "$out"; }
no_rt() { PATH=/usr/bin:/bin call "$desk" good >"$out"; status 3 && says "rt isn't there" && no_scratch; }
emulator_settings() { QEMU_VERSION=1 LD_PRELOAD='' QEMU_LOG=nonsense call "$desk" good >"$out"; good; }
no_umask() {
    umask 777
    as_nobody "$desk" good >"$out"
    umask 022
    chmod 644 "$out" "$err"
    good
}
shell() { # SHELL
    call "$@" "$desk" good >"$out"
    good || return 1
    call "$@" "$desk" good >/dev/full
    status 3 && no_scratch
}

try "a name with =" named 'c=d'
try "a name with =, refused" equals_refused
try "a name with a space and a star" named 'a * b'
try "a name that begins with - behind --" dashed
try "an empty name" empty_name
try "-- alone" dashes_alone
try "an option that there isn't" wrong_option
try "a link to a link to ./desk" linked
try "an exported CDPATH" cd_path
try "a TMPDIR that isn't there" no_tmp
try "a TMPDIR that isn't there, help" no_tmp_help
try "no rt on the PATH" no_rt
try "settings for the emulator" emulator_settings
try "a umask that leaves nothing" no_umask
try "bash in place of sh" shell bash
if command -v busybox >/dev/null; then try "busybox's sh in place of sh" shell busybox sh; fi
