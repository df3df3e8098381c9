# What is found in a formula's text, for the messages that cause.awk makes. Whether a text is a formula, the programs say.

# It stands in a file: with a name before it, as in the environment, the longest word of a call is too long, and awk reads the backslashes of
# a setting.
function asked(text, line, lines) {
    while ((getline line <ENVIRON["asked"]) > 0) text = text (lines++ ? "\n" : "") line
    return text
}

function plain(limit) { gsub(",", "", limit); return limit + 0 }

# Reading goes on at `place` and stops at the first byte that no formula could have there; `wanted` is what could stand there.
function takes(text, sign, i) {
    for (i = 1; i <= length(sign); i++) {
        wanted = substr(sign, i, 1)
        if (substr(text, place, 1) != wanted) return 0
        place++
    }
    return 1
}
function takes_atom(text, digit, digits) {
    while ((digit = substr(text, place, 1)) ~ /^[0-9]$/) {
        wanted = digits == "0" ? "no digit, as numbers have no leading zeros" : "no digit that makes it more than p" plain(most_atoms) - 1
        if (digits == "0" || (digits digit) + 0 >= plain(most_atoms)) return 0
        digits = digits digit
        place++
    }
    wanted = "the number of an atom"
    return digits != ""
}
# what stands before an operand: a prefix, or a bracket that opens, of which is kept what is due in its middle
function takes_opening(text, sign) {
    sign = substr(text, place++, 1)
    if (sign == "!") return 1
    if (sign != "(" && substr(text, place, 1) ~ /^[XFG]$/) {
        place++
        return takes(text, " ")
    }
    if (sign != "(" && !takes(text, "(")) {
        wanted = "X, F, G or ("
        return 0
    }
    open[++depth] = sign == "(" ? "sign" : " U "
    return 1
}
function takes_middle(text) {
    if (open[depth] == " U ") return takes(text, " U ")
    wanted = "&, | or >"
    if (substr(text, place, 1) !~ /^[&|>]$/) return 0
    place++
    return 1
}
function is_formula(text) {
    place = 1; depth = 0
    for (;;) {
        while (substr(text, place, 1) ~ /^[!(EA]$/) if (!takes_opening(text)) return 0
        if (takes(text, "p")) { if (!takes_atom(text)) return 0 }
        else if (!takes(text, "T")) { wanted = "a formula"; return 0 }
        # what ends here may be the right operand of one bracket after another
        for (; depth > 0 && open[depth] == ")"; depth--) if (!takes(text, ")")) return 0
        wanted = "the end of the formula"
        if (depth == 0) return place > length(text)
        if (!takes_middle(text)) return 0
        open[depth] = ")"
    }
}

function named(byte) { return byte == " " ? "a blank" : byte ~ /^[!-~]$/ ? "'" byte "'" : "a byte that no formula has" }
# what may have been meant by a byte that isn't due
function hint(text, byte, before) {
    before = place > 1 ? substr(text, place - 1, 1) : ""
    if (byte == "P") return "; an atom has a small p"
    if (wanted == "a formula" && byte ~ /^[aet]$/ || wanted == "X, F, G or (" && byte ~ /^[xfg]$/ || wanted == "U" && byte == "u")
        return "; A, E, F, G, T, U and X are capital letters"
    if (wanted == "a formula" && byte ~ /^[XFG]$/) return "; " byte " stands behind an E or an A" (byte == "F" ? ", and false is !T" : "")
    if (substr(text, place, 2) ~ /^[-=]>$/) return "; an implies is written (f>g)"
    if (wanted == "&, | or >" && byte == ")") return "; brackets hold two formulas"
    if (byte !~ /^[&|>]$/) return ""
    if (byte == before) return "; the sign is a single " byte
    # behind an operand
    if (before ~ /^[0-9T)]$/) return "; an " (byte == "&" ? "and" : byte == "|" ? "or" : "implies") " has brackets of its own"
    return ""
}
function fault_in(text, byte) {
    if (length(text) > plain(most_formula)) return "at most " most_formula " bytes, here " length(text)
    if (text == "") return "the formula is empty"
    if (is_formula(text)) return ""
    if (wanted == " ") wanted = "a blank"
    if (place > length(text)) return "the formula ends behind byte " length(text) "; due there: " wanted
    byte = substr(text, place, 1)
    return "byte " place " of the formula is " named(byte) "; due there: " wanted hint(text, byte)
}

# each node has one of these signs
function nodes_in(text) { return gsub(/[Tp!&|>XFGU]/, "", text) }

# the numbers of its atoms, as places of `set`
function atoms_in(text, set) {
    for (; match(text, /p[0-9]+/); text = substr(text, RSTART + RLENGTH)) set[substr(text, RSTART + 1, RLENGTH - 1) + 0] = 1
}
# the same with another number for each
function renumbered(text, to, made) {
    while (match(text, /p[0-9]+/)) {
        made = made substr(text, 1, RSTART) to[substr(text, RSTART + 1, RLENGTH - 1) + 0]
        text = substr(text, RSTART + RLENGTH)
    }
    return made text
}

function atoms_named(atoms) { return atoms > 1 ? atoms " atoms, p0 to p" atoms - 1 : atoms == 1 ? "one atom, p0" : "no atom" }
function atom_beyond(text, atoms, digits) {
    while (match(text, /p[0-9]+/)) {
        digits = substr(text, RSTART + 1, RLENGTH - 1)
        if (digits + 0 >= atoms) return "the formula names p" digits ", and the model has " atoms_named(atoms)
        text = substr(text, RSTART + RLENGTH)
    }
    return ""
}
function atoms_lost(text, atoms, set, a, lost) {
    atoms_in(text, set)
    for (a = 0; a < atoms; a++) if (!(a in set)) lost = lost (lost == "" ? "p" : ", p") a
    return lost == "" ? "" : "the formula doesn't name " lost ", and the model has " atoms_named(atoms) "; with --only-named it is judged without them"
}
