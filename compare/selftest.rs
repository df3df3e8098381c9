//! The rules' worked cases 1 to 13 and a few checks of this program itself.

use crate::agreeing;
use crate::answers;
use crate::graphs;
use crate::judge::{judge, judge_whole, Judged};
use crate::limits::model_case;
use crate::model::{letters, Model};
use crate::models;
use crate::question::{self, Asking, Question};
use crate::random::Random;
use crate::{formula, frames, generate, naming, pictures, reader, readings, wider};
use std::process::ExitCode;

pub fn run() -> ExitCode {
    case_1();
    cases_2_to_6();
    cases_7_to_10();
    case_11();
    case_12_counts();
    case_12_rest();
    case_13();
    listing_limit();
    order_of_refusals();
    completions();
    framing();
    agreement();
    formula::selftest();
    readings::selftest();
    wider::selftest();
    naming::selftest();
    pictures::selftest();
    println!("selftest ok");
    ExitCode::SUCCESS
}

fn answer_to(text: &str) -> String {
    answers::answer(&model_case(text.as_bytes().to_vec()))
}

const CASE_1: &str = "states=2\natoms=1\ninit=10\nlabel=U\nlabel=T\nedges=2\nedge=0,1\nedge=1,1\n\
    nodes=3\nnode=1,0,0\nnode=4,0,0\nnode=2,0,0\n";

fn case_1() {
    assert_eq!(answer_to(CASE_1), "answer=0\nrow=UT\nrow=TT\nrow=UF\nmodel=U\n");
}

/// The rows of a model whose labels are given state by state, every state initial.
fn rows(atoms: usize, labels: &str, transitions: &[u16], nodes: &[u16]) -> Vec<String> {
    let values: Vec<u8> =
        labels.bytes().filter(|b| *b != b' ').map(|b| b"FUT".iter().position(|l| *l == b).unwrap() as u8).collect();
    let states = values.len() / atoms;
    let (initial, transitions, nodes) = (vec![1; states], transitions.to_vec(), nodes.to_vec());
    let model = Model { states, atoms, labels: values, initial, transitions, nodes };
    let judged = judge_whole(&model).unwrap();
    assert!(judged.by_walks, "the worked cases are small");
    judged.rows.iter().map(|row| letters(row)).collect()
}

fn cases_2_to_6() {
    // not(p and not p)
    assert_eq!(rows(1, "U", &[0, 0], &[1, 0, 0, 2, 0, 0, 3, 0, 1, 2, 2, 0])[3], "U");
    // Atom 0 is the left part, atom 1 the right part; the last two rows are E and A.
    let until = [1, 0, 0, 1, 1, 0, 5, 0, 1, 6, 0, 1];
    let at_0 = |labels: &str, transitions: &[u16]| {
        let rows = rows(2, labels, transitions, &until);
        format!("{}{}", &rows[2][..1], &rows[3][..1])
    };
    assert_eq!(at_0("TF TT", &[0, 0, 0, 1, 1, 1]), "TF");
    assert_eq!(at_0("TU TT", &[0, 0, 0, 1, 1, 1]), "TU");
    assert_eq!(at_0("UF TT", &[0, 1, 1, 1]), "UU");
    assert_eq!(&at_0("TF FT", &[0, 1, 1, 0])[..1], "T");
}

fn night_7() -> Question {
    let transitions = vec![0, 1, 0, 2, 1, 3, 2, 3, 3, 3];
    Question { states: 4, level: 2, transitions, left: vec![2, 2, 2, 0], right: vec![0, 0, 0, 2] }
}

fn first(question: &Question, start: u16, room: usize) -> String {
    answers::answer(&question::write(question, &Asking::First { start, room }))
}

fn cases_7_to_10() {
    let both = "path=0,1,3\npath=0,2,3\nend\n";
    assert_eq!(first(&night_7(), 0, 4), both);
    let unknown = Question { left: vec![2, 1, 2, 0], ..night_7() };
    assert_eq!(first(&unknown, 0, 4), "path=0,2,3\nend\n");
    assert_eq!(first(&Question { level: 1, ..unknown }, 0, 4), both);
    assert_eq!(first(&night_7(), 3, 4), "path=3\nend\n");
    assert_eq!(first(&Question { right: vec![0; 4], ..night_7() }, 0, 4), "none\n");
}

fn case_11() {
    let transitions = [0, 1, 1, 4, 2, 0, 3, 0, 4, 5, 5, 6, 6, 5];
    // p, q, r, s; p and q; its negation; r and s; EX of that; the conjunction.
    let nodes = [1, 0, 0, 1, 1, 0, 1, 2, 0, 1, 3, 0, 3, 0, 1, 2, 4, 0, 3, 2, 3, 4, 6, 0, 3, 5, 7];
    let rows = rows(4, "TTTT TTUF UFFT UUTF FTTU TTTF TUUF", &transitions, &nodes);
    assert_eq!(rows[5], "FFTUTFU");
    assert_eq!(rows[6], "TFFFUFF");
    assert_eq!(rows[7], "FUTTFFF");
    assert_eq!(rows[8], "FFTUFFF");
}

/// Every state keeps to itself except that the first ones have further transitions.
fn counted(states: usize, atoms: usize, transitions: usize, nodes: usize) -> String {
    let mut random = Random::of_case(1, 1);
    let mut pairs: Vec<[u16; 2]> = (0..states as u16).map(|state| [state, state]).collect();
    let others = (0..states as u16).flat_map(|from| (0..states as u16).map(move |to| [from, to]));
    pairs.extend(others.filter(|pair| pair[0] != pair[1]).take(transitions - states));
    pairs.sort();
    let nodes = models::formulas(&mut random, atoms, nodes);
    let (labels, initial) = (vec![1; states * atoms], vec![1; states]);
    let model = Model { states, atoms, labels, initial, transitions: pairs.concat(), nodes };
    let answer = answers::answer(&model_case(model.text()));
    answer.lines().next().unwrap().to_string()
}

fn case_12_counts() {
    assert_eq!(counted(256, 1, 256, 3), "answer=0");
    assert_eq!(counted(257, 1, 257, 3), "answer=1");
    assert_eq!(counted(3, 32, 3, 33), "answer=0");
    assert_eq!(counted(3, 33, 3, 34), "answer=2");
    assert_eq!(counted(40, 1, 1024, 3), "answer=0");
    assert_eq!(counted(40, 1, 1025, 3), "answer=6");
    assert_eq!(counted(3, 1, 5, 64), "answer=0");
    assert_eq!(counted(3, 1, 5, 65), "answer=10");
    assert_eq!(counted(3, 0, 5, 4), "answer=0");
    assert_eq!(counted(256, 32, 1024, 64), "answer=0");
}

fn case_12_rest() {
    let model = reader::read(CASE_1.as_bytes()).unwrap();
    assert_eq!(judge(&model, 5).err(), Some(13));
    assert!(judge(&model, 6).is_ok());
    assert_eq!(first(&night_7(), 0, 2), "answer=16\n");
    let next = |path: &[u16]| answers::answer(&question::write(&night_7(), &Asking::Next(path.to_vec())));
    assert_eq!(next(&[0, 3]), "answer=17\n");
    assert_eq!(next(&[]), "answer=17\n");
    assert_eq!(next(&[0, 1, 3, 3]), "answer=17\n");
    assert_eq!(next(&[0, 1, 3]), "path=0,2,3\n");
    assert_eq!(next(&[0, 2, 3]), "end\n");
    let check = |path: &[u16]| answers::answer(&question::write(&night_7(), &Asking::Check(path.to_vec())));
    assert_eq!(check(&[0, 1, 3]), "yes\n");
    assert_eq!(check(&[3]), "yes\n");
    for path in [&[][..], &[0, 1], &[0, 3], &[0, 1, 3, 3], &[4], &[0, 65_535, 3]] {
        assert_eq!(check(path), "no\n");
    }
    assert_eq!(answer_to(""), "answer=19\n");
    assert_eq!(answer_to(&"x".repeat(32_768)), "answer=19\n");
    assert_eq!(answer_to(&"x".repeat(32_769)), "answer=18\n");
}

/// The model's verdict for the values FF FU FT, UF UU UT, TF TU TT of two states, both initial or one of them.
fn case_13() {
    let verdicts = |init: &str| -> String {
        let pairs = "FUT".chars().flat_map(|one| "FUT".chars().map(move |other| (one, other)));
        let text = |one: char, other: char| {
            let labels = format!("label={one}\nlabel={other}\n");
            format!("states=2\natoms=1\ninit={init}\n{labels}edges=2\nedge=0,1\nedge=1,0\nnodes=1\nnode=1,0,0\n")
        };
        pairs.map(|(one, other)| answer_to(&text(one, other)).trim_end().chars().last().unwrap()).collect()
    };
    assert_eq!(verdicts("11"), "FFFFUUFUT");
    assert_eq!(verdicts("10"), "FFFUUUTTT");
    assert_eq!(verdicts("01"), "FUTFUTFUT");
}

/// Exactly 200 paths end with "end", one more layer's choice with "more".
fn listing_limit() {
    let listed = |widths: &[usize]| {
        let graph = graphs::layered(widths);
        let states = graph.states;
        let mut right = vec![0; states];
        right[states - 1] = 2;
        first(&Question { states, level: 2, transitions: graph.transitions(), left: vec![2; states], right }, 0, states)
    };
    let (whole, cut) = (listed(&[5, 5, 8]), listed(&[5, 5, 9]));
    assert_eq!((whole.lines().count(), whole.lines().last()), (201, Some("end")));
    assert_eq!((cut.lines().count(), cut.lines().last()), (201, Some("more")));
}

fn order_of_refusals() {
    let changed = |from: &str, to: &str| answer_to(&CASE_1.replacen(from, to, 1));
    // A count decides before what follows it is read, but after its own line's form.
    assert_eq!(answer_to("states=0\nnonsense"), "answer=1\n");
    assert_eq!(answer_to("states=0"), "answer=19\n");
    assert_eq!(answer_to("states=65536\n"), "answer=19\n");
    assert_eq!(answer_to("states=257\natoms=33\n"), "answer=1\n");
    assert_eq!(changed("init=10", "init=12"), "answer=19\n");
    assert_eq!(changed("init=10", "init=00"), "answer=5\n");
    assert_eq!(changed("edge=1,1", "edge=1,2"), "answer=7\n");
    assert_eq!(changed("edge=1,1", "edge=0,1"), "answer=8\n");
    assert_eq!(changed("edge=0,1\nedge=1,1", "edge=0,0\nedge=0,1"), "answer=9\n");
    assert_eq!(changed("node=4,0,0", "node=14,9,9"), "answer=11\n");
    assert_eq!(changed("node=4,0,0", "node=4,1,0"), "answer=12\n");
    assert_eq!(changed("node=1,0,0", "node=1,1,0"), "answer=12\n");
    assert_eq!(changed("node=2,0,0\n", "node=2,0,0\n\n"), "answer=19\n");
}

/// The values of all rows and the model's verdict.
fn all_verdicts(judged: &Judged) -> Vec<u8> {
    [judged.rows.concat(), vec![judged.verdict]].concat()
}

/// A verdict true or false is the verdict in every completion.
fn completions() {
    for number in 0..300 {
        let mut random = Random::of_case(7, number);
        let model = models::small(&mut random);
        let judged = judge_whole(&model).unwrap();
        let unknown: Vec<usize> = (0..model.labels.len()).filter(|&place| model.labels[place] == 1).collect();
        for choice in 0..1usize << unknown.len().min(6) {
            let mut completed = model.clone();
            for (bit, &place) in unknown.iter().enumerate() {
                completed.labels[place] = 2 * (choice >> bit & 1) as u8;
            }
            let after = judge_whole(&completed).unwrap();
            let (was, is) = (all_verdicts(&judged), all_verdicts(&after));
            assert!(is.iter().all(|&value| value != 1), "no unknown label, no unknown verdict");
            let kept = was.iter().zip(&is).all(|(&value, &after)| value == 1 || value == after);
            assert!(kept, "a settled verdict changed in a completion of {model:?}");
        }
    }
}

fn framing() {
    let made: Vec<Vec<u8>> = (0..200).map(|number| generate::mixed(3, number)).collect();
    let bytes: Vec<u8> = made.iter().flat_map(|case| frames::frame(case)).collect();
    assert_eq!(frames::cases(&bytes).unwrap(), made);
}

/// Each answer is held to its case, one that is missing or too many differs, and a shown picture may be any.
fn agreement() {
    let shown = b"S\n2,0,2\n0,0,0,1,1,0\n2,2\n0,0\n";
    let cases = [&question::write(&night_7(), &Asking::Next(vec![0, 2, 3]))[..], shown];
    let differing = |text: &str| agreeing::differing(&cases, &frames::answers(text.as_bytes()));
    assert!(differing("end\n.\npath=0\nback=0\n.\n").is_empty());
    assert!(differing("end\n.\npath=0,1\nback=0\n.\n").is_empty());
    assert_eq!(differing("none\n.\npath=0,1\nback=1\n.\n"), [0, 1]);
    assert_eq!(differing("end\n.\npicture\n.\n"), [1]);
    assert_eq!(differing("end\n.\n"), [1]);
    assert_eq!(differing("end\n.\npath=0\nback=0\n"), [1]);
    assert_eq!(differing("end\n.\npath=0\nback=0\n.\nend\n.\n"), [2]);
}
