//! Models whose tables are refused when they are judged: 5, 7, 8, 9, 11 and 12, each by its own cause.

use crate::model::Model;
use crate::random::Random;

pub const CAUSES: [u16; 6] = [5, 7, 8, 9, 11, 12];

/// Brings one cause into a model and leaves everything else as it was.
pub fn spoil(random: &mut Random, model: &mut Model, cause: u16) {
    match cause {
        5 => model.initial.fill(0),
        7 => foreign_end(random, &mut model.transitions, model.states),
        8 => disorder(random, &mut model.transitions),
        9 => dead_end(random, model),
        11 => {
            let place = 3 * random.below(model.nodes.len() / 3);
            model.nodes[place] = random.kinds.no_kind(random);
        }
        12 => bad_operand(random, model),
        other => panic!("no such cause: {other}"),
    }
}

/// A further transition to or from a number that is no state, put where the order allows it.
pub fn foreign_end(random: &mut Random, transitions: &mut Vec<u16>, states: usize) {
    let strange = random.pick(&[states, states + 1, 65_535]) as u16;
    let known = random.below(states) as u16;
    let pair = if random.chance(50) { [known, strange] } else { [strange, known] };
    let place = transitions.chunks_exact(2).filter(|other| other[..] < pair[..]).count();
    transitions.splice(2 * place..2 * place, pair);
}

/// A pair twice, or two neighbours exchanged; which pairs there are stays the same.
pub fn disorder(random: &mut Random, transitions: &mut Vec<u16>) {
    let pairs = transitions.len() / 2;
    let place = 2 * random.below(pairs);
    if place >= 2 && random.chance(60) {
        let moved: Vec<u16> = transitions.drain(place..place + 2).collect();
        transitions.splice(place - 2..place - 2, moved);
    } else {
        let pair = [transitions[place], transitions[place + 1]];
        transitions.splice(place..place, pair);
    }
}

/// A state loses its transitions; if nothing would be left, a new state gets none instead.
fn dead_end(random: &mut Random, model: &mut Model) {
    let state = random.below(model.states) as u16;
    let kept: Vec<u16> = model.transitions.chunks(2).filter(|pair| pair[0] != state).flatten().copied().collect();
    if !kept.is_empty() {
        model.transitions = kept;
        return;
    }
    model.states += 1;
    model.initial.push(0);
    model.labels.extend(vec![1; model.atoms]);
}

/// An operand not earlier, an atom that is none, or an unused number not 0.
fn bad_operand(random: &mut Random, model: &mut Model) {
    let place = random.below(model.nodes.len() / 3);
    let kind = model.nodes[3 * place];
    let late = random.pick(&[place, place + 1, 64, 65_535]) as u16;
    let odd = random.pick(&[1, 2, 65_535]);
    let no_atom = random.pick(&[model.atoms, model.atoms + 1, 65_535]) as u16;
    let (left, right) = (3 * place + 1, 3 * place + 2);
    match (kind, random.chance(50)) {
        (0, true) => model.nodes[left] = odd,
        (1, true) => model.nodes[left] = no_atom,
        // A number that is no kind has no unused number either.
        _ if kind > random.kinds.greatest() => model.nodes[right] = late,
        (0..=2 | 4 | 9..=13, false) => model.nodes[right] = odd,
        (_, true) => model.nodes[left] = late,
        _ => model.nodes[right] = late,
    }
}
