# A model's text with the labels of those atoms alone that a formula names, for --only-named: every other line stays. In the file that the
# environment has as `kept` it writes the formula with its atoms numbered as they are then, and below it the numbers that they had. Ends with 1
# and without a text where text or formula is refused anyway. formula.awk is read beside it; what is set before is as for cause.awk.
function leave() { left = 1; exit }

BEGIN {
    formula = asked()
    if (!ended || size + 0 > plain(most_text) || fault_in(formula) != "") leave()
    atoms_in(formula, in_formula)
}
NR == 1 {
    if ($0 !~ /^states=[1-9][0-9]*$/) leave()
    states = substr($0, 8) + 0
}
NR == 2 {
    if ($0 !~ /^atoms=(0|[1-9][0-9]*)$/) leave()
    atoms = substr($0, 7) + 0
    if (atoms > plain(most_atoms) || atom_beyond(formula, atoms) != "") leave()
    for (a = 0; a < atoms; a++) if (a in in_formula) { number_of[a] = count++; numbers = numbers " " a }
    $0 = "atoms=" count + 0
}
NR > 3 && NR <= 3 + states {
    value = substr($0, 7)
    if (substr($0, 1, 6) != "label=" || length(value) != atoms || value ~ /[^TUF]/) leave()
    $0 = "label="
    for (a = 0; a < atoms; a++) if (a in in_formula) $0 = $0 substr(value, a + 1, 1)
}
{ line[NR] = $0 }
END {
    if (left || NR < 3 + states) exit 1
    for (i = 1; i <= NR; i++) print line[i]
    print renumbered(formula, number_of) "\n" numbers >ENVIRON["kept"]
}
