# Lines of measurements: how ./label takes them, what it says of those that are refused, and what befalls it.
# shellcheck shell=bash disable=SC2154,SC2034 # names that another of these files sets or reads
says_lines() { [ "$(wc -l <"$err")" = "$1" ] || { echo "says $(wc -l <"$err") lines and not $1; the last: $(tail -n 1 "$err")"; return 1; }; }
labelled() { status 0 && wrote $'T\nU\nF' && says_lines 0 && no_scratch; }
labels() { # ARGUMENTS, the lines on standard input too
    call "$label" "$@" <lines >"$out"
    labelled
}
mislabelled() { # STATUS WORDS-EXPECTED ARGUMENTS
    call "$label" "${@:3}" <lines >"$out"
    status "$1" && says "$2" && wrote "" && no_scratch
}
tells() { # WORDS-EXPECTED TEXT: a good line, the line, and a good one again
    printf 'x#T\n%b\nx#F\n' "$2" >told
    call "$label" told >"$out"
    status 1 && says "label: line 2: $1" && [ "$(sed '2d' "$out")" = $'T\nF' ] && no_scratch
}
tells_last() { # TEXT
    printf 'x#T\n%b' "$1" >told
    call "$label" told >"$out"
    status 1 && says "label: line 2: 19, it isn't ended by a line feed: " && wrote $'T\nanswer=19' && no_scratch
}
in_places() {
    printf 'x#T\nx\nbetween=2,1 volts=1,2#answer=21\nx#U\n' >told
    call "$label" told >"$out"
    status 1 && wrote $'T\nanswer=19\nanswer=21\nU' && says "line 2: 19, " && says "line 3: 21, " && says_lines 2 && no_scratch
}
many_refused() { # COUNT LINES-OF-WORDS
    { echo 'x#T' && yes x | head -n "$1"; } >told
    call "$label" told >"$out"
    status 1 && [ "$(grep -c '^answer=19$' "$out")" = "$1" ] && says_lines "$2" && says "line 11: 19, " && no_scratch
}
more_refused() { many_refused 13 11 && says "and 3 more"; }
no_escapes() { # what a terminal would obey isn't passed on to it
    printf 'atleast=\033[2J volts=1,2\n' >told
    call "$label" told >"$out"
    status 1 && says "line 1: 19, '?[2J' is no voltage" && ! grep -q "$(printf '\033')" "$err"
}
no_lines() { call "$label" "$@" </dev/null >"$out"; status 0 && wrote "" && says_lines 0 && no_scratch; }
unwhole() { # LINES
    printf '%b' "$1" >told
    call "$label" told >"$out"
    status 3 && says "the program's answer isn't whole" && no_scratch
}
large() { call "$label" large >"$out"; status 0 && cmp "$out" large.answer && no_scratch; }
large_refused() {
    { cat large && echo x; } >told
    call "$label" <told >"$out"
    status 1 && [ "$(sed '$d' "$out" | cmp - large.answer)" = "" ] && says "line $(wc -l <told): 19, " && no_scratch
}
told_early() { # the rest isn't read any more, and nothing is said of that
    { echo x && cat large; } >told
    (trap '' PIPE && exec "$label" told >"$out" 2>"$err")
    got=$?
    status 1 && says "line 1: 19, " && says_lines 1 && no_scratch
}
one_large_line() {
    { tr '\n' ' ' <large | tr -d '#' && printf '\nx#T\n'; } >told
    call "$label" told >"$out"
    status 1 && wrote $'answer=19\nT' && says "line 1: 19, a line has at most 128 bytes: atleast=4.75 " && [ "$(wc -c <"$err")" -lt 250 ] && no_scratch
}
large_without_room() {
    (ulimit -f 64 && exec "$label" large >"$out" 2>"$err")
    got=$?
    status 3 && says "has no room" && wrote "" && no_scratch
}
label_unread() { # STATUS SETTING
    (eval "$2"; sleep 0.5; "$label" large 2>"$err"; echo $? >"$room/status") | head -n 1 >"$out"
    got=$(cat "$room/status")
    status "$1" && wrote T && none_at_work && no_scratch
}
label_helps() {
    call "$label" --help >"$out"
    status 0 && grep -qF "between=A,B" "$out" && grep -qF "at most 128 bytes" "$out" && grep -qF "4294967295" "$out" && ! grep -q model "$out"
}
label_full() { call "$label" lines >/dev/full; status 3 && says "can't be written" && no_scratch; }
label_closed() { call "$label" lines >&-; status 3 && says "closed" && no_scratch; }
label_unheard() { "$label" told >"$out" 2>&-; got=$?; status 1 && wrote answer=19 && no_scratch; }
label_without_input() { call "$label" <&- >"$out"; status 2 && says "closed" && wrote "" && no_scratch; }
label_beside_closed() { call "$label" lines <&- >"$out"; labelled; }
label_directory() { call "$label" "$@" <"$room" >"$out"; status 2 && says "irectory" && wrote "" && no_scratch; }
label_secret() {
    cp lines locked
    chmod 000 locked
    as_nobody "$label" locked >"$out"
    status 2 && says "locked can't be read" && no_scratch
}
label_linked() {
    mkdir -p "$room/links"
    ln -sf "../${house##*/}/label" "$room/links/measure"
    call "$room/links/measure" lines >"$out"
    labelled
}
label_cd_path() {
    cd "$room" || return 1
    CDPATH=$room:. call "${house##*/}/label" models/lines >"$out"
    labelled
}
label_settings() { copy=x taken=x most_line=1 most_told=0 refused=9 unfinished=1 kept=/dev/null call "$label" lines >"$out"; labelled; }
label_without_rt() { PATH=/usr/bin:/bin call "$label" lines >"$out"; status 3 && says "rt isn't there" && no_scratch; }
label_unbuilt() {
    unbuilt
    call "$label" lines >"$out"
    status 0 && wrote $'T\nU\nF' && builds 1 && says "./label" && no_scratch
}
lines_awaited() { # SIGNAL STATUS
    pipe
    CALL_MARK=$room "$label" <&7 >"$out" 2>"$err" &
    send "$1" "$2"
}
labels_not_taken() { # SIGNAL STATUS
    pipe
    head -c 65536 /dev/zero >&7
    CALL_MARK=$room "$label" large >&7 2>"$err" &
    send "$1" "$2"
}
in_shell() { # SHELL
    call "$@" "$label" lines >"$out"
    labelled || return 1
    call "$@" "$label" told >"$out"
    status 1 && wrote answer=19 && says "line 1: 19, " && no_scratch
}

if [ -e "$house/label" ]; then
    printf 'atleast=4.75 volts=4.9,5.1#T\natmost=5.25 volts=4.9,5.3#U\nbetween=5,6 ticks=3,5#F\n' >lines
    cp lines ./-lines
    cp lines 'e=f'
    cp lines 'a * line'
    # two million bytes, and no two lines that follow each other have one answer
    awk 'BEGIN { for (i = 0; i < 70000; i++) print "atleast=4.75 volts=4.9,5.1#" substr("TUF", i % 3 + 1, 1) }' >large
    sed 's/.*#//' <large >large.answer

    try "help names the form, ./label" label_helps
    try "lines in a file" labels lines
    try "lines on standard input" labels
    try "lines on standard input, -" labels -
    try "lines, -- alone" labels --
    try "lines in a file that begins with -, behind --" labels -- -lines
    try "lines in a file with = in its name" labels 'e=f'
    try "lines in a file with a blank and a star in its name" labels 'a * line'
    try "lines in /dev/stdin" labels /dev/stdin
    try "two files, ./label" mislabelled 2 "one file at most, and here are 2" lines lines
    try "an option that there isn't, ./label" mislabelled 2 "there is no option -x;" -x
    try "a file that begins with - without --" mislabelled 2 "there is no option -lines;" -lines
    try "an empty name, ./label" mislabelled 2 "there is no file ''" ""
    try "a file that isn't there, ./label" mislabelled 2 "there is no file 'nowhere'" nowhere
    try "no lines" no_lines
    try "no lines, a file" no_lines /dev/null
    try "refused lines in their places, and a line of words for each" in_places
    try "ten refused lines" many_refused 10 10
    try "more than ten refused lines" more_refused
    try "refusal 19, no line feed at the end" tells_last 'atleast=4.75 volts=4.9,5.1'
    try "refusal 19, no line feed behind a zero byte" tells_last '\0'
    try "refusal 19, no line feed behind a line that is too long" tells_last "$(printf '%200s' '')"
    try "refusal 19, an empty line" tells "19, the line is empty" ''
    try "refusal 19, a carriage return" tells "19, it ends in a carriage return" 'atleast=1 volts=1,2\r'
    try "refusal 19, a tab" tells "19, it has a tab, which is no blank: atleast=1?volts=1,2" 'atleast=1\tvolts=1,2'
    try "refusal 19, no blank" tells "19, one blank is due, between gate and measurement, here 0: atleast=1" 'atleast=1'
    try "refusal 19, two blanks" tells "19, one blank is due, between gate and measurement, here 2: " 'atleast=1  volts=1,2'
    try "refusal 19, a gate that there isn't" tells "19, 'atlest=1' is no gate: atleast=X, atmost=X or between=A,B is due: " 'atlest=1 volts=1,2'
    try "refusal 19, a measurement that there isn't" tells "19, 'volt=1,2' is no measurement: " 'atleast=1 volt=1,2'
    try "refusal 19, one limit of two" tells "19, two numbers with a comma between them are due behind between=, here 1: " 'between=1 volts=1,2'
    try "refusal 19, a decimal comma" tells "19, one number is due behind atleast=, here 2: " 'atleast=4,75 volts=1,2'
    try "refusal 19, no comma" tells "19, two numbers with a comma between them are due behind volts=, here 1: atleast=4.75 volts=4.9" 'atleast=4.75 volts=4.9'
    try "refusal 19, a limit that is no voltage" tells "19, '+5' is no voltage: nan, inf, -inf or a decimal" 'atleast=+5 volts=1,2'
    try "refusal 19, an end that is no voltage" tells "19, '5.' is no voltage" 'atleast=5 volts=1,5.'
    try "refusal 19, no number" tells "19, '' is no voltage" 'atleast=5 volts=1,'
    try "refusal 19, too many digits" tells "19, '1234567890123456' has more than 15 digits" 'atleast=1 volts=1,1234567890123456'
    try "refusal 19, a great exponent" tells "19, '1e23' has an exponent" 'atleast=1e23 volts=1,2'
    try "refusal 19, a point and a small exponent" tells "19, '1.5e-22' has an exponent" 'atleast=1 volts=1.5e-22,2'
    try "refusal 19, a decimal limit of ticks" tells "19, '1.5' is no limit of ticks: a whole number" 'atleast=1.5 ticks=3,5'
    try "refusal 19, a limit beyond those of ticks" tells "19, '-2147483649' is no limit of ticks" 'between=-2147483649,0 ticks=3,5'
    try "refusal 19, a counter below zero" tells "19, '-1' is no counter: a whole number from 0 to 4294967295" 'atleast=1 ticks=3,-1'
    try "refusal 19, a counter beyond 32 bits" tells "19, '4294967296' is no counter" 'atleast=1 ticks=4294967296,0'
    try "refusal 19, a byte that no line has" tells "19, 'atl???ast=1' is no gate" 'atlé\0ast=1 volts=1,2'
    try "refusal 19, backslashes and a percent sign" tells "19, '\\n%d' is no voltage" 'atleast=\\n%d volts=1,2'
    try "refusal 19, and no fault that the words know" tells "19, it isn't in the form GATE MEASUREMENT: atleast=1 volts=1,2" 'atleast=1 volts=1,2'
    try "refusal 19, signs that a terminal obeys" no_escapes
    try "refusal 21, a NaN" tells "21, a gate with a NaN: between=1,nan volts=1,2" 'between=1,nan volts=1,2#answer=21'
    try "refusal 21, crossed limits" tells "21, a gate with crossed limits: between=2,1 volts=1,nan" 'between=2,1 volts=1,nan#answer=21'
    try "an answer with a line too few" unwhole 'x#T\nx##\nx#T\n'
    try "an answer with a line too many" unwhole 'x#T\nx#T|T\n'
    try "an answer that ends within a line" unwhole 'x#T\nx#answer=1##\n'
    try "an answer with a word that it can't have" unwhole 'x#T\nx#answer=0\n'
    try "no answer to the last line" unwhole 'x#T\nx##'
    try "two million bytes, line for line" large
    try "two million bytes, the last line refused" large_refused
    try "two million bytes, the first line refused, and signals of pipes ignored" told_early
    try "two million bytes in one line" one_large_line
    try "two million bytes, and no room for them" large_without_room
    printf 'x\n' >told
    try "a full device, ./label" label_full
    try "closed output, ./label" label_closed
    try "closed input, ./label" label_without_input
    try "closed input beside a file, ./label" label_beside_closed
    try "closed error output, ./label" label_unheard
    try "a directory as input, ./label" label_directory
    try "a directory as the file, ./label" label_directory "$room"
    try "a file that can't be read, ./label" label_secret
    try "a reader that goes, ./label" label_unread 141 :
    try "a reader that goes, and nobody is told, ./label" label_unread 3 "trap '' PIPE"
    try "a link to ./label" label_linked
    try "an exported CDPATH, ./label" label_cd_path
    try "a caller's variables aren't taken for those of ./label" label_settings
    try "no rt on the PATH, ./label" label_without_rt
    try "TERM while the lines don't come" lines_awaited TERM 143
    try "TERM while nobody takes the labels" labels_not_taken TERM 143
    try "bash in place of sh, ./label" in_shell bash
    if command -v busybox >/dev/null; then try "busybox's sh in place of sh, ./label" in_shell busybox sh; fi
    try "the first call, of ./label" label_unbuilt
fi
