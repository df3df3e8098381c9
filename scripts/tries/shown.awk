# Whether what ./witness wrote, the second file, is a reason for a claim about a state of a model, the first file, or none where the claim isn't so;
# where not, what is wrong. Set before: state, claim, row (of what is claimed, in letters), told (paths or picture), left and right (its rows).
function fault(words) { if (!bad) print "state " state ", " claim ": " words; bad = 1; exit 1 }
function value(row, s) { return substr(row, s + 1, 1) }
function is(claim, v) { return claim == "true" ? v == "T" : claim == "false" ? v == "F" : v != "F" }

function join(i) {
    if (n < 1 || n > length(row)) fault("a list of " n " states")
    if (entry[1] != state) fault("another state is the first")
    for (i = 1; i < n; i++) if (!((entry[i] "," entry[i + 1]) in edge)) fault("no transition from " entry[i] " to " entry[i + 1])
}
# the paths that show an AG to be false are those of an exists-until that is true
function look_at_path(level, i) {
    level = claim == "possible" ? "possible" : "true"
    for (i = 1; i < n; i++) if (!is(level, value(left, entry[i]))) fault("left isn't " level " at " entry[i])
    if (!is(level, value(right, entry[n]))) fault("right isn't " level " at the last state")
    if (first && n != first) fault("paths of " first " and of " n " states")
    first = n
}
function look_at_picture(i) {
    for (i = 1; i <= n; i++) if (!is("false", value(right, entry[i]))) fault("right isn't false at " entry[i])
}
function look_at_end(place) {
    if ($0 == "falls") {
        if (!is("false", value(left, entry[n]))) fault("left isn't false at the last state")
        return
    }
    if ($0 !~ /^back=(0|[1-9][0-9]*)$/) fault("it ends with " $0)
    place = substr($0, 6) + 0
    if (place >= n) fault("the list has no place " place)
    if (!((entry[n] "," entry[place + 1]) in edge)) fault("no transition from " entry[n] " back to " entry[place + 1])
}

NR == FNR {
    if (/^edge=/) edge[substr($0, 6)] = 1
    next
}
ended { fault("a line behind the end") }
FNR == 1 && (is(claim, value(row, state)) ? $0 !~ /^path=/ : $0 != "none") { fault("it begins with " $0) }
$0 == "none" { ended = 1; next }
/^path=/ {
    if (told == "picture" && FNR > 1) fault("a second list")
    n = split(substr($0, 6), entry, ",")
    join()
    if (told == "picture") look_at_picture(); else look_at_path()
    next
}
{ ended = 1 }
told == "paths" && $0 != "end" { fault("it ends with " $0) }
told == "picture" { look_at_end() }
END {
    if (!bad && !ended) fault("it doesn't end")
    exit bad
}
