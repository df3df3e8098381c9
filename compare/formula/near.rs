//! What is near to a sign of the grammar and is no sign.

/// Near to a prefix of two letters and a blank: the blank, the letters' case, their order and their number.
pub fn prefix(sign: &str) -> Vec<String> {
    let (one, other) = (&sign[..1], &sign[1..2]);
    let (small_one, small_other) = (one.to_lowercase(), other.to_lowercase());
    vec![
        format!("{one}{other}"),
        format!("{one}{other}  "),
        format!("{one} {other} "),
        format!("{one} {other}"),
        format!(" {one}{other} "),
        format!("{one}{other}\t"),
        format!("{one}{other}("),
        format!("{small_one}{small_other} "),
        format!("{small_one}{other} "),
        format!("{one}{small_other} "),
        format!("{other}{one} "),
        format!("{one} "),
        format!("{other} "),
        format!("{one}{one} "),
        format!("{other}{other} "),
        format!("{one}{other}{other} "),
    ]
}

/// Near to a sign between two formulas: doubled, with blanks, and as others write it.
pub fn middle(sign: &str) -> Vec<String> {
    let around = [format!("{sign}{sign}"), format!(" {sign} "), format!(" {sign}"), format!("{sign} ")];
    let others = ["", " ", "->", "=>", "<", ">=", "-", "/", "\\/", "+", ",", "^", "v", "U", " U "];
    around.into_iter().chain(others.map(String::from)).collect()
}
