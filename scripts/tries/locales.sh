# Another locale, made here: the scripts and the comparison of the gate are the same in it.
# shellcheck shell=bash disable=SC2154,SC2034 # names that another of these files sets or reads
elsewhere() { # FUNCTION [WORDS], in the other locale
    export LC_ALL=en_US.UTF-8
    "$@"
}
export LOCPATH=$room
if localedef -i en_US -f UTF-8 "$room/en_US.UTF-8" 2>/dev/null && [ "$(printf 'B\na\n' | LC_ALL=en_US.UTF-8 sort | head -n 1)" = a ]; then
    try "another locale, a name" elsewhere named 'é'
    try "another locale, a refusal" elsewhere refused 8 "${graph/edge=1,1/edge=0,0}" "it doesn't come after edge=0,1"
    if [ -e "$house/label" ]; then try "another locale, a refused line" elsewhere tells "19, '??5' is no voltage" 'atleast=é5 volts=1,2'; fi
    if command -v rustc >/dev/null; then try "another locale, the stored cases" elsewhere "$checkout/compare/stored"; fi
else
    echo "another locale wasn't tried: en_US.UTF-8 can't be made here"
fi
