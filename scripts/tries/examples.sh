# The examples, with the programs themselves: where they are built and current, since nothing of the checkout's own is built here.
# shellcheck shell=bash disable=SC2154,SC2034 # names that another of these files sets or reads
built() { # in a shell of its own
    root=$checkout
    die() { exit 3; }
    # shellcheck disable=SC1091 # looked at by itself
    [ -r "$root/scripts/build.sh" ] && . "$root/scripts/build.sh" && find_kit && current
}
example() { # COMMAND ANSWER
    cd "$checkout" || return 1
    call sh -c "$1" >"$out" </dev/null
    status 0 && wrote "$2" && no_scratch
}

if (built); then
    for model in "$checkout"/examples/*.model; do
        try "examples/${model##*/}" example "./desk 'examples/${model##*/}'" "$(cat "${model%.model}.answer")"
    done
    # a line that begins with $ is a command, those behind it are its answer, and an empty line ends it
    asking='' answering=''
    while IFS= read -r line <&8; do
        case $line in
            '$ '*) asking=${line#??} answering='' ;;
            '') try "$asking" example "$asking" "${answering%?}" ;;
            *) answering+=$line$'\n' ;;
        esac
    done 8< <(for asked in "$checkout"/examples/*.txt; do cat "$asked" && echo; done)
else
    echo "the examples weren't tried: the programs aren't built here"
fi
