# Why a line was refused: reads the lines of ./label and prints one line of words for each that is refused, as far as they are listed in the
# file that the environment has as `kept`: place and number, below a line of counts. It serves the messages alone; what is labelled or refused,
# the program says. Set before: most (bytes in a line; a longer one comes cut, one byte behind), unfinished (the place of a line that no line
# feed ends, or 0).
function plain(s) { gsub(/[^ -~]/, "?", s); return s }

# what is wrong with a number of each kind, or nothing
function fault_in_voltage(s, part, behind, power) {
    if (s ~ /^(nan|-?inf)$/) return ""
    if (s !~ /^-?(0|[1-9][0-9]*)(\.[0-9]+)?(e-?(0|[1-9][0-9]*))?$/) return "is no voltage: nan, inf, -inf or a decimal such as -12.5 or 3e-6 is due"
    split(s, part, "e")
    behind = index(part[1], ".") ? length(part[1]) - index(part[1], ".") : 0
    power = part[2] - behind
    if (gsub(/[0-9]/, "", part[1]) > 15) return "has more than 15 digits"
    if (power < -22 || power > 22) return "has an exponent that less the digits behind the point isn't from -22 to 22"
    return ""
}
function fault_in_limit(s) {
    if (s ~ /^-?(0|[1-9][0-9]*)$/ && s + 0 >= -2147483648 && s + 0 <= 2147483647) return ""
    return "is no limit of ticks: a whole number from -2147483648 to 2147483647 is due"
}
function fault_in_counter(s) {
    if (s ~ /^(0|[1-9][0-9]*)$/ && s + 0 <= 4294967295) return ""
    return "is no counter: a whole number from 0 to 4294967295 is due"
}
function fault_in_number(s, kind) {
    return kind == "voltage" ? fault_in_voltage(s) : kind == "limit" ? fault_in_limit(s) : fault_in_counter(s)
}

# a key, and behind it so many numbers of a kind
function fault_in_part(s, many, kind, key, part, n, i, fault) {
    key = substr(s, 1, index(s, "="))
    n = split(substr(s, length(key) + 1), part, ",")
    if (n != many) return (many == 1 ? "one number is due behind " key : "two numbers with a comma between them are due behind " key) ", here " n
    for (i = 1; i <= n; i++) if ((fault = fault_in_number(part[i], kind)) != "") return "'" plain(part[i]) "' " fault
    return ""
}
function fault_in_line(s, part, n, ticks, fault) {
    if (NR == unfinished) return "it isn't ended by a line feed"
    if (length(s) > most) return "a line has at most " most " bytes"
    if (s == "") return "the line is empty"
    if (s ~ /\r$/) return "it ends in a carriage return; lines end in a line feed alone"
    if (s ~ /\t/) return "it has a tab, which is no blank"
    n = split(s, part, /[ ]/)
    if (n != 2) return "one blank is due, between gate and measurement, here " n - 1
    if (part[1] !~ /^(atleast|atmost|between)=/) return "'" plain(part[1]) "' is no gate: atleast=X, atmost=X or between=A,B is due"
    if (part[2] !~ /^(volts|ticks)=/) return "'" plain(part[2]) "' is no measurement: volts=LEAST,GREATEST or ticks=LATER,EARLIER is due"
    ticks = part[2] ~ /^ticks/
    fault = fault_in_part(part[1], part[1] ~ /^between/ ? 2 : 1, ticks ? "limit" : "voltage")
    return fault != "" ? fault : fault_in_part(part[2], 2, ticks ? "counter" : "voltage")
}
function cause(s, fault) {
    if (number == 21) return "a gate with " (s ~ /nan.* / ? "a NaN" : "crossed limits")
    fault = fault_in_line(s)
    return fault != "" ? fault : "it isn't in the form GATE MEASUREMENT"
}
function shown(s) { return s == "" ? "" : ": " plain(substr(s, 1, most)) (length(s) > most ? " .." : "") }

function go_on(line, part) {
    if ((getline line <ENVIRON["kept"]) <= 0) exit
    split(line, part, " ")
    place = part[1] + 0
    number = part[2]
}
BEGIN { getline <ENVIRON["kept"]; go_on() }
NR == place {
    printf "line %.0f: %s, %s%s\n", NR, number, cause($0), shown($0)
    go_on()
}
