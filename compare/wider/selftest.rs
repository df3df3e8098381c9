//! Or, implies, AX, EF, AF, EG and AG by hand: each row below is worked from the meaning, walk by walk.

use super::listed;
use crate::answers;
use crate::graphs;
use crate::judge::judge_whole;
use crate::limits::model_case;
use crate::model::{letters, Model};

pub fn run() {
    pairs();
    next();
    forks();
    few_states();
    last_entry();
    too_many_walks();
    refusals();
}

fn rows_of(model: &Model, by_walks: bool) -> Vec<String> {
    let judged = judge_whole(model).unwrap();
    assert_eq!(judged.by_walks, by_walks, "the walks are listed or too many, as the case means it");
    judged.rows.iter().map(|row| letters(row)).collect()
}

/// The rows of AX, EF, AF, EG and AG of one atom.
fn along(transitions: &[u16], labels: &str) -> [String; 5] {
    let values = labels.bytes().map(|byte| b"FUT".iter().position(|&letter| letter == byte).unwrap() as u8);
    let model = listed::walked(transitions.to_vec(), values.collect());
    let rows = rows_of(&model, model.states < 20);
    [1, 2, 3, 4, 5].map(|row: usize| rows[row].clone())
}

/// Both values run through FUT, the left one slower.
fn pairs() {
    let rows = rows_of(&listed::pairs(), true);
    assert_eq!(rows[..2], ["FFFUUUTTT", "FUTFUTFUT"]);
    assert_eq!(rows[2], "FUTUUTTTT", "left or right");
    assert_eq!(rows[3], "TTTUUTFUT", "left implies right");
    assert_eq!(rows[4], "TUFTUUTTT", "right implies left");
    assert_eq!(rows[5..], ["FFFUUUTTT", "TUTTUTTUT"], "left or left, right implies right");
}

/// State 0 goes on to 1, 2 and 3, state 2 to 1 and 3, states 1 and 3 stay.
fn next() {
    let graph = [0, 1, 0, 2, 0, 3, 1, 1, 2, 1, 2, 3, 3, 3];
    assert_eq!(along(&graph, "FUFT")[0], "FUUT");
    assert_eq!(along(&graph, "FTTT")[0], "TTTT");
    assert_eq!(along(&graph, "TTFT")[0], "FTTT");
    assert_eq!(along(&graph, "TFTU")[0], "FFFU");
}

/// From state 0 the walks 0,1,1 and 0,2,2; states 1 and 2 stay and have their own values.
fn forks() {
    let at_0 = |labels: &str| {
        let rows = along(&[0, 1, 0, 2, 1, 1, 2, 2], labels);
        rows[1..].iter().for_each(|row| assert_eq!(row[1..], labels[1..]));
        rows[1..].iter().map(|row| &row[..1]).collect::<String>()
    };
    // EF, AF, EG, AG: greatest and least of the walks' greatest values, then of their least values.
    assert_eq!(at_0("FTF"), "TFFF");
    assert_eq!(at_0("TUF"), "TTUF");
    assert_eq!(at_0("UTF"), "TUUF");
    assert_eq!(at_0("FUT"), "TUFF");
    assert_eq!(at_0("TTU"), "TTTU");
    assert_eq!(at_0("FUU"), "UUFF");
    assert_eq!(at_0("TUU"), "TTUU");
    assert_eq!(at_0("UFF"), "UUFF");
    assert_eq!(at_0("UTU"), "TUUU");
}

fn few_states() {
    let rows = |transitions: &[u16], labels: &str| along(transitions, labels).join(" ");
    // One state: AX of itself, and one walk that is only this state.
    assert_eq!(rows(&[0, 0], "U"), "U U U U U");
    // State 0 may stay or leave: the walks 0,0 and 0,1, then 1,1.
    assert_eq!(rows(&[0, 0, 0, 1, 1, 1], "FT"), "FT TT FT FT FT");
    assert_eq!(rows(&[0, 0, 0, 1, 1, 1], "TF"), "FF TF TF TF FF");
    assert_eq!(rows(&[0, 0, 0, 1, 1, 1], "UT"), "UT TT UT UT UT");
    // A ring: one walk from each state, and it meets all three.
    assert_eq!(rows(&[0, 1, 1, 2, 2, 0], "FUT"), "UTF TTT TTT FFF FFF");
    // State 1 goes back or on: 0,1,0 and 0,1,2; 1,0,1 and 1,2,2; 2,2,2.
    assert_eq!(rows(&[0, 1, 1, 0, 1, 2, 2, 2], "TUF"), "UFF TTF TUF UUF FFF");
}

/// A chain of four states: the last state comes only as the fourth entry of the walk from the first one.
fn last_entry() {
    let rows = |labels: &str| along(&[0, 1, 1, 2, 2, 3, 3, 3], labels)[1..].join(" ");
    assert_eq!(rows("FFFT"), "TTTT TTTT FFFT FFFT");
    assert_eq!(rows("TTTF"), "TTTF TTTF FFFF FFFF");
    assert_eq!(rows("UFFT"), "TTTT TTTT FFFT FFFT");
    assert_eq!(rows("TTUT"), "TTTT TTTT UUUT UUUT");
}

/// State 0, five layers of six joined wholly, a last state that stays; of the third layer state 13 is unknown.
fn too_many_walks() {
    let graph = graphs::layered(&[6; 5]).transitions();
    let row = |before: char, unknown: char, others: char, behind: char| -> String {
        let of = |state: usize| match state {
            0..=12 => before,
            13 => unknown,
            14..=18 => others,
            _ => behind,
        };
        (0..32).map(of).collect()
    };
    let [next, some, every, all_of_some, all_of_every] = along(&graph, &row('F', 'U', 'T', 'F'));
    assert_eq!([&next[..1], &next[6..9], &next[12..14], &next[31..]], ["F", "FUU", "UF", "F"]);
    assert_eq!([some, every], [row('T', 'U', 'T', 'F'), row('U', 'U', 'T', 'F')]);
    assert_eq!([all_of_some, all_of_every], [row('F', 'F', 'F', 'F'), row('F', 'F', 'F', 'F')]);
    let [_, some, every, all_of_some, all_of_every] = along(&graph, &row('T', 'U', 'F', 'T'));
    assert_eq!([some, every], [row('T', 'T', 'T', 'T'), row('T', 'T', 'T', 'T')]);
    assert_eq!([all_of_some, all_of_every], [row('U', 'U', 'F', 'T'), row('F', 'U', 'F', 'T')]);
}

/// One node behind two atoms': its kind, its left and its right number.
fn refusals() {
    let model = "states=1\natoms=1\ninit=1\nlabel=T\nedges=1\nedge=0,0\nnodes=3\nnode=1,0,0\nnode=1,0,0\n";
    let answer = |node: &str| {
        let case = model_case(format!("{model}node={node}\n").into_bytes());
        answers::answer(&case).lines().next().unwrap()[7..].to_string()
    };
    for kind in 7..=13 {
        let given = |left: u16, right: u16| answer(&format!("{kind},{left},{right}"));
        assert_eq!([given(0, 0), given(1, 0)], ["0", "0"], "kind {kind}");
        // Or and implies have a right operand, the others an unused number there.
        assert_eq!(given(0, 1), if kind < 9 { "0" } else { "12" }, "kind {kind}");
        for (left, right) in [(2, 0), (3, 0), (65_535, 0), (0, 2), (0, 3), (0, 65_535)] {
            assert_eq!(given(left, right), "12", "kind {kind}");
        }
    }
    for node in ["14,0,0", "14,9,9", "15,0,0", "255,0,0", "256,0,0", "263,0,0", "269,0,0", "65535,65535,65535"] {
        assert_eq!(answer(node), "11", "{node}");
    }
}
