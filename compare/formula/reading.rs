//! Reading by shifting and reducing: signs wait on a stack until what they hold is whole, so no depth is too deep.

use super::tree::{Formula, JOINTS, PREFIXES};

pub const MOST_BYTES: usize = 4_096;
pub const MOST_NODES: usize = 64;
pub const MOST_ATOMS: u16 = 32;
pub const NO_FORMULA: u16 = 20;
const TOO_MANY_NODES: u16 = 10;

enum Item {
    Sign(&'static str),
    Whole(Formula),
}

use Item::{Sign, Whole};

pub fn read(text: &[u8]) -> Result<Formula, u16> {
    if text.len() > MOST_BYTES {
        return Err(NO_FORMULA);
    }
    let formula = whole(text).ok_or(NO_FORMULA)?;
    match formula.size() > MOST_NODES {
        true => Err(TOO_MANY_NODES),
        false => Ok(formula),
    }
}

/// The one formula that the text is; no limit counts here.
fn whole(mut text: &[u8]) -> Option<Formula> {
    let mut stack = Vec::new();
    while !text.is_empty() {
        let (item, rest) = front(text)?;
        text = rest;
        match item {
            Whole(formula) => settle(&mut stack, formula),
            Sign(")") => close(&mut stack)?,
            Sign(sign) => stack.push(Sign(sign)),
        }
    }
    match (stack.pop(), stack.is_empty()) {
        (Some(Whole(formula)), true) => Some(formula),
        _ => None,
    }
}

/// The sign or leaf that the text begins with; none is the beginning of another.
fn front(text: &[u8]) -> Option<(Item, &[u8])> {
    if let Some(rest) = text.strip_prefix(b"T") {
        return Some((Whole(Formula::True), rest));
    }
    if let Some(rest) = text.strip_prefix(b"p") {
        let (digits, rest) = rest.split_at(rest.iter().take_while(|byte| byte.is_ascii_digit()).count());
        // Comparing with the number written down leaves no leading zero and no number that is too large.
        let number = (0..MOST_ATOMS).find(|number| number.to_string().as_bytes() == digits)?;
        return Some((Whole(Formula::Atom(number)), rest));
    }
    let signs = PREFIXES.iter().map(|row| row.1).chain(JOINTS.iter().flat_map(|row| [row.1, row.2])).chain([")"]);
    let found = signs.into_iter().find(|sign| text.starts_with(sign.as_bytes()))?;
    Some((Sign(found), &text[found.len()..]))
}

/// A whole formula takes all prefixes that wait right before it.
fn settle(stack: &mut Vec<Item>, mut formula: Formula) {
    while let Some(Sign(sign)) = stack.last() {
        let Some(operator) = PREFIXES.iter().position(|row| row.1 == *sign) else {
            break;
        };
        stack.pop();
        formula = formula.prefixed(operator);
    }
    stack.push(Whole(formula));
}

/// A closing bracket takes an opening sign, a formula, a middle sign and a formula, and makes them whole.
fn close(stack: &mut Vec<Item>) -> Option<()> {
    let (right, middle, left, first) = (stack.pop()?, stack.pop()?, stack.pop()?, stack.pop()?);
    let (Sign(first), Whole(left), Sign(middle), Whole(right)) = (first, left, middle, right) else {
        return None;
    };
    let operator = JOINTS.iter().position(|row| row.1 == first && row.2 == middle)?;
    settle(stack, left.joined(operator, right));
    Some(())
}
