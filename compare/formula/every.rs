//! Every short text and list, held to the grammar as a set: what can be made by its rules, and nothing else.

use super::tree::Formula;
use super::{reading, rebuilding};
use std::collections::{BTreeMap, BTreeSet};

/// The grammar's signs, and some that are only parts of them; parts make none but the signs that stand beside them.
const SIGNS: [[&str; 12]; 3] = [
    ["T", "p3", "!", "EX ", "E(", "(", "&", " U ", ")", "E", " ", "1"],
    ["T", "p3", "AX ", "EG ", "EF ", "(", "|", ">", ")", "X", " ", "-"],
    ["T", "AF ", "AG ", "A(", "(", ">", " U ", ")", "A", "F", "G", " "],
];
const PREFIXES: [&str; 7] = ["!", "EX ", "AX ", "EF ", "AF ", "EG ", "AG "];
const JOINTS: [(&str, &str); 5] = [("(", "&"), ("(", "|"), ("(", ">"), ("E(", " U "), ("A(", " U ")];
const MOST_SIGNS: usize = 6;
const MOST_LISTED: usize = 3;

/// A text and how many signs it has.
type Texts = BTreeMap<String, usize>;

/// The grammar's rules that these signs allow, applied until nothing new comes within the count of signs.
fn texts(signs: &[&str]) -> Texts {
    let there = |parts: &[&str]| parts.iter().all(|part| signs.contains(part));
    let leaves = [("T", &["T"][..]), ("p3", &["p3"]), ("p31", &["p3", "1"])];
    let leaves = leaves.iter().filter(|(_, parts)| there(parts));
    let mut found: Texts = leaves.map(|(leaf, parts)| (leaf.to_string(), parts.len())).collect();
    loop {
        let mut made = found.clone();
        for (one, count) in &found {
            let prefixes = PREFIXES.iter().filter(|prefix| there(&[**prefix]));
            made.extend(prefixes.map(|prefix| (format!("{prefix}{one}"), count + 1)));
            for (other, more) in &found {
                let joints = JOINTS.iter().filter(|(first, middle)| there(&[*first, *middle]));
                made.extend(joints.map(|(first, middle)| (format!("{first}{one}{middle}{other})"), count + more + 3)));
            }
        }
        made.retain(|_, count| *count <= MOST_SIGNS);
        if made.len() == found.len() {
            return found;
        }
        found = made;
    }
}

pub fn short_texts() {
    SIGNS.iter().for_each(|signs| short_texts_of(signs));
}

fn short_texts_of(signs: &[&str]) {
    let texts = texts(signs);
    let mut accepted = BTreeSet::new();
    for count in 0..=MOST_SIGNS as u32 {
        for choice in 0..signs.len().pow(count) {
            let sign = |place: u32| signs[choice / signs.len().pow(place) % signs.len()];
            let text: String = (0..count).map(sign).collect();
            let read = reading::read(text.as_bytes()).is_ok();
            assert_eq!(read, texts.contains_key(&text), "{text}");
            accepted.extend(read.then_some(text));
        }
    }
    assert!(accepted.iter().eq(texts.keys()), "every text of the grammar was met");
}

/// The lists of all formulas with these few nodes and these few atoms.
fn lists() -> BTreeSet<Vec<u16>> {
    let mut found = vec![Formula::True, Formula::Atom(0), Formula::Atom(1), Formula::Atom(2)];
    for _ in 1..MOST_LISTED {
        let mut made = found.clone();
        made.extend(found.iter().flat_map(|one| (0..PREFIXES.len()).map(|operator| one.clone().prefixed(operator))));
        for (one, other) in found.iter().flat_map(|one| found.iter().map(move |other| (one, other))) {
            made.extend((0..JOINTS.len()).map(|operator| one.clone().joined(operator, other.clone())));
        }
        made.retain(|formula| formula.size() <= MOST_LISTED);
        found = made;
    }
    found.iter().map(Formula::nodes).collect()
}

/// The kinds and one that is none, each with three numbers for its left and its right one.
const NODES: usize = 15 * 3 * 3;

pub fn short_lists() {
    let lists = lists();
    let mut accepted = 0;
    for count in 0..=MOST_LISTED as u32 {
        for choice in 0..NODES.pow(count) {
            let node = |place: u32| choice / NODES.pow(place) % NODES;
            let numbers = |node: usize| [node / 9, node / 3 % 3, node % 3].map(|number| number as u16);
            let list: Vec<u16> = (0..count).flat_map(|place| numbers(node(place))).collect();
            let whole = rebuilding::of_whole(&list).is_some();
            assert_eq!(whole, lists.contains(&list), "{list:?}");
            accepted += whole as usize;
        }
    }
    assert_eq!(accepted, lists.len(), "every list of a formula was met");
}
