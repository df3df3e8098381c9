//! Pictures by hand, and what is made of them.

use super::answering::{has_picture, verdict};
use super::asking::{self, Asking, Ending};
use super::checker::is_picture;
use super::edges::{chain, ring};
use super::listed::{drawn, ALONE, CHAIN, LOOP, RING, TWO_WAYS};
use super::{listed, mixture, shown};
use crate::answers::answer;
use crate::question::Question;
use std::collections::BTreeSet;
use Ending::{Back, Falls};

pub fn run() {
    handed_out();
    checked();
    long_ones();
    judged();
    made_cases();
}

fn word(question: &Question, start: u16, room: usize) -> String {
    answer(&asking::write(question, &Asking::Word { start, room }))
}

fn handed_out() {
    let at_0 = |transitions: &[u16], left: &str, right: &str| word(&drawn(transitions, left, right), 0, left.len());
    assert_eq!(at_0(&ALONE, "T", "F"), "picture\nyes\n", "it stays for ever");
    assert_eq!(at_0(&ALONE, "F", "U"), "none\n", "the right part may hold");
    assert_eq!(at_0(&CHAIN, "TTTF", "FFFF"), "picture\nyes\n");
    assert_eq!(at_0(&CHAIN, "TTFT", "FFFT"), "picture\nyes\n", "it falls before the right part holds");
    assert_eq!(at_0(&CHAIN, "TTUT", "FFFT"), "none\n", "an unknown left part is no fall");
    assert_eq!(at_0(&CHAIN, "TTTT", "FFFT"), "none\n");
    assert_eq!(at_0(&RING, "UUUU", "FFFF"), "picture\nyes\n");
    assert_eq!(at_0(&RING, "UUUU", "FFUF"), "none\n");
    assert_eq!(at_0(&TWO_WAYS, "TTTTF", "FUFFF"), "picture\nyes\n", "the longer way remains");
    assert_eq!(at_0(&TWO_WAYS, "TTTTF", "FUUFF"), "none\n");
    let fallen = drawn(&CHAIN, "FTTT", "FFFF");
    assert_eq!([0, 3, 4].map(|room| word(&fallen, 0, room)), ["answer=16\n", "answer=16\n", "picture\nyes\n"]);
    assert_eq!(word(&drawn(&CHAIN, "TTTT", "FFFU"), 0, 0), "none\n", "no picture, no room");
    assert_eq!(word(&fallen, 4, 0), "answer=15\n");
}

fn checked() {
    let holds = |left, right, list: &[u16], ending| is_picture(&drawn(&LOOP, left, right), list, ending);
    assert!(holds("TTTT", "FFFF", &[0, 1, 2, 3], Back(1)));
    assert!(!holds("TTTT", "FFFF", &[0, 1, 2, 3], Back(0)));
    assert!(!holds("TTTT", "FFFF", &[0, 1, 2, 3], Back(4)));
    assert!(!holds("TTTT", "FFFF", &[0, 1, 2, 3], Falls));
    assert!(holds("TTTT", "FFFF", &[0, 1, 2, 3, 1, 2, 3], Back(4)));
    assert!(holds("TTFT", "FFFT", &[0, 1, 2], Falls));
    assert!(holds("FFFT", "FFFT", &[0, 1, 2], Falls), "falling earlier does no harm");
    assert!(!holds("TTUT", "FFFT", &[0, 1, 2], Falls));
    assert!(!holds("TTFT", "FUFT", &[0, 1, 2], Falls));
    for list in [&[][..], &[0, 2], &[4, 1, 2], &[0, 1, 65_535]] {
        assert!(!holds("FFFF", "FFFF", list, Falls), "{list:?}");
    }
}

/// The only picture of a ring or of a chain goes through every state.
fn long_ones() {
    for question in [chain(256), ring(256, 1), ring(256, 4)] {
        assert!(has_picture(&question, 0) && has_picture(&question, 255));
        assert_eq!(word(&question, 0, 255), "answer=16\n");
    }
    let whole: Vec<u16> = (0..256).collect();
    assert!(is_picture(&chain(256), &whole, Falls) && is_picture(&ring(256, 1), &whole, Back(0)));
    assert!(!is_picture(&ring(256, 1), &whole[..255], Back(0)));
}

/// What is shown is taken if it is a picture of the asked state, whichever it is, and is written as it should be.
fn judged() {
    let question = drawn(&LOOP, "TTFT", "FFFF");
    let shows = |start: u16, text: &str| {
        let case = asking::write(&question, &Asking::Shown { start, room: 4 });
        assert_eq!(answer(&case), "picture\n");
        shown::accepts(&case, text.as_bytes())
    };
    assert!(shows(0, "path=0,1,2\nfalls\n"));
    assert!(shows(0, "path=0,1,2,3\nback=1\n"));
    assert!(shows(3, "path=3,1,2\nfalls\n") && shows(3, "path=3,1,2\nback=0\n"));
    assert!(!shows(3, "path=3,1\nback=0\n"));
    assert!(!shows(1, "path=0,1,2\nfalls\n"), "another start");
    assert!(!shows(0, "path=0,1,2,3,1,2\nfalls\n"), "a picture, but longer than there are states");
    let texts = ["picture\n", "none\n", "path=0,1,2\n", "path=0,1,2\nfalls", "path=0,1,2\nfalls\n\n", "path=\nfalls\n"];
    let others = ["path=00,1,2\nfalls\n", "path=0,1,2,3\nback=01\n", "path=0,1,2,3\nback=4\n", "path=0,1,2\nback=x\n"];
    texts.iter().chain(&others).for_each(|text| assert!(!shows(0, text), "{text}"));
}

/// No listed case comes twice, only W and X are stored, and the verdicts asked for are of each kind.
fn made_cases() {
    let listed = listed::cases();
    assert_eq!(listed.iter().collect::<BTreeSet<_>>().len(), listed.len());
    let mixed: Vec<_> = (0..4_000).map(|number| mixture::case(17, number)).collect();
    assert!(listed.iter().chain(&mixed).all(|case| case.starts_with(b"W\n") || case.starts_with(b"X\n")));
    let mut verdicts = [0; 3];
    for (number, case) in mixed.iter().enumerate() {
        let shown = mixture::fresh(17, number);
        assert!(shown == *case || Some(shown) == shown::of_word(case));
        if let (0..=7, Some((question, Asking::Word { start, .. }))) = (number % 20, asking::read(case)) {
            verdicts[verdict(&question, start) as usize] += 1;
        }
    }
    assert!(verdicts.iter().all(|&count| count >= 200), "false, unknown and true of 1,600: {verdicts:?}");
    assert!(verdicts[0] >= 600 && verdicts[0] <= 1_000, "about half are false: {verdicts:?}");
}
