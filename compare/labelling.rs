//! Judging by two ordinary labellings: "sure" takes unknown against us, "possible" takes it in our favour.
//! Negation exchanges the two.

use crate::along::{held, met, worths};
use crate::model::{successors, Model};

#[derive(Clone)]
struct Marks {
    sure: Vec<bool>,
    possible: Vec<bool>,
}

pub fn rows(model: &Model) -> Vec<Vec<u8>> {
    let next = successors(model.states, &model.transitions);
    let mut marks: Vec<Marks> = Vec::new();
    for node in model.nodes.chunks(3) {
        let row = node_marks(model, node, &marks, &next);
        marks.push(row);
    }
    marks.iter().map(verdicts).collect()
}

fn node_marks(model: &Model, node: &[u16], marks: &[Marks], next: &[Vec<usize>]) -> Marks {
    let (left, right) = (node[1] as usize, node[2] as usize);
    let both = |rule: &dyn Fn(&[bool], &[bool]) -> Vec<bool>| Marks {
        sure: rule(&marks[left].sure, &marks[right].sure),
        possible: rule(&marks[left].possible, &marks[right].possible),
    };
    let label = |state: usize| model.labels[state * model.atoms + left];
    let all = 0..model.states;
    match node[0] {
        0 => Marks { sure: vec![true; model.states], possible: vec![true; model.states] },
        1 => Marks {
            sure: all.clone().map(|state| label(state) == 2).collect(),
            possible: all.map(|state| label(state) != 0).collect(),
        },
        2 => Marks { sure: negated(&marks[left].possible), possible: negated(&marks[left].sure) },
        3 => both(&|one, other| one.iter().zip(other).map(|(&a, &b)| a && b).collect()),
        4 => both(&|one, _| next.iter().map(|list| list.iter().any(|&s| one[s])).collect()),
        5 => both(&|one, other| until(one, other, next, false)),
        6 => both(&|one, other| until(one, other, next, true)),
        7 => both(&|one, other| either(one, other)),
        8 => Marks {
            sure: either(&negated(&marks[left].possible), &marks[right].sure),
            possible: either(&negated(&marks[left].sure), &marks[right].possible),
        },
        9 => both(&|one, _| next.iter().map(|list| list.iter().all(|&s| one[s])).collect()),
        10 => both(&|one, _| worths(one, next, met).iter().map(|&(_, greatest)| greatest).collect()),
        11 => both(&|one, _| worths(one, next, met).iter().map(|&(least, _)| least).collect()),
        12 => both(&|one, _| worths(one, next, held).iter().map(|&(_, greatest)| greatest).collect()),
        13 => both(&|one, _| worths(one, next, held).iter().map(|&(least, _)| least).collect()),
        kind => panic!("kind {kind} is refused before judging"),
    }
}

fn negated(marks: &[bool]) -> Vec<bool> {
    marks.iter().map(|mark| !mark).collect()
}

fn either(one: &[bool], other: &[bool]) -> Vec<bool> {
    one.iter().zip(other).map(|(&a, &b)| a || b).collect()
}

/// The least fixpoint by plain rounds: right, or left with all (A) or some (E) successors marked.
pub fn until(left: &[bool], right: &[bool], next: &[Vec<usize>], every: bool) -> Vec<bool> {
    let mut marked = right.to_vec();
    loop {
        let before = marked.clone();
        for state in 0..marked.len() {
            let mut after = next[state].iter().map(|&s| marked[s]);
            let onward = if every { after.all(|mark| mark) } else { after.any(|mark| mark) };
            marked[state] = marked[state] || (left[state] && onward);
        }
        if marked == before {
            return marked;
        }
    }
}

fn verdicts(marks: &Marks) -> Vec<u8> {
    let one = |(&sure, &possible): (&bool, &bool)| {
        assert!(possible || !sure, "what is sure is possible");
        sure as u8 + possible as u8
    };
    marks.sure.iter().zip(&marks.possible).map(one).collect()
}
