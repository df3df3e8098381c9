//! Random cases about named atoms, by their number modulo 10:
//!    0 to 2  M, one atom lost (22)
//!    3       M, several atoms lost (22)
//!    4 and 5 M, an atom lost and named again by a node put anywhere
//!    6       M, an atom lost and further causes
//!    7 and 8 Q, a formula that has lost an atom (22)
//!    9       Q, a formula with all atoms, the model's own nodes without one

use crate::formula::answering::judging_case;
use crate::formula::judgings;
use crate::generate::sure;
use crate::limits::model_case;
use crate::model::Model;
use crate::models;
use crate::random::Random;
use crate::refusals::UNNAMED;
use crate::spoiled;

/// Far from every case number of the other mixtures, so that no two cases share their random numbers.
const BEGIN: u64 = 1 << 35;

/// Case number `number` of a seed.
pub fn case(seed: u64, number: usize) -> Vec<u8> {
    let mut random = Random::of_case(seed, BEGIN + number as u64);
    match number % 10 {
        0..=2 => sure(model_case(without(&mut random, 1).text()), UNNAMED),
        3 => {
            let losses = random.between(2, 4);
            sure(model_case(without(&mut random, losses).text()), UNNAMED)
        }
        4 | 5 => model_case(named_again(&mut random).text()),
        6 => model_case(several(&mut random).text()),
        7 | 8 => asked_without(&mut random),
        _ => asked_with(&mut random),
    }
}

/// An accepted model that has an atom, most often few.
fn with_atoms(random: &mut Random) -> Model {
    let mut model = models::any(random);
    while model.atoms == 0 {
        model = models::any(random);
    }
    model
}

/// A model in which so many atoms were lost, some perhaps twice.
fn without(random: &mut Random, losses: usize) -> Model {
    let mut model = with_atoms(random);
    for _ in 0..losses {
        let lost = random.below(model.atoms) as u16;
        lose(random, &mut model, lost);
    }
    model
}

/// Every node that names the atom names another, or becomes a constant or a node of another kind with the same number.
fn lose(random: &mut Random, model: &mut Model, lost: u16) {
    let atoms = model.atoms as u16;
    for place in 0..model.nodes.len() / 3 {
        let node = &mut model.nodes[3 * place..3 * place + 3];
        if node[..2] != [1, lost] {
            continue;
        }
        let changed = match random.below(3) {
            0 if atoms > 1 => [1, (lost + 1 + random.below(model.atoms - 1) as u16) % atoms, 0],
            1 if (lost as usize) < place => [random.pick(&[2, 4, 9, 10, 11, 12, 13]), lost, 0],
            2 if (lost as usize) < place => [random.pick(&[3, 5, 6, 7, 8]), lost, random.pick(&[0, lost])],
            _ => [0, 0, 0],
        };
        node.copy_from_slice(&changed);
    }
}

/// A node that names the lost atom takes the place of any other that names none; else the model stays without it.
fn named_again(random: &mut Random) -> Model {
    let mut model = with_atoms(random);
    let lost = random.below(model.atoms) as u16;
    lose(random, &mut model, lost);
    let free: Vec<usize> = (0..model.nodes.len() / 3).filter(|place| model.nodes[3 * place] != 1).collect();
    if !free.is_empty() {
        let place = 3 * random.pick(&free);
        model.nodes[place..place + 3].copy_from_slice(&[1, lost, 0]);
    }
    model
}

fn several(random: &mut Random) -> Model {
    let mut model = without(random, 1);
    for _ in 0..random.between(1, 2) {
        let cause = random.pick(&spoiled::CAUSES);
        spoiled::spoil(random, &mut model, cause);
    }
    model
}

/// A model with an atom more than its formula names, at any place.
fn asked_without(random: &mut Random) -> Vec<u8> {
    let (model, formula) = judgings::draw(random);
    let place = random.below(model.atoms + 1);
    let rows = (0..model.states).flat_map(|state| {
        let mut row = model.labels[state * model.atoms..(state + 1) * model.atoms].to_vec();
        row.insert(place, (state % 3) as u8);
        row
    });
    let wider = Model { atoms: model.atoms + 1, labels: rows.collect(), ..model.clone() };
    let moved = |atom: u16| if atom as usize >= place { atom + 1 } else { atom };
    sure(judging_case(formula.renamed(&moved).text().as_bytes(), &wider.text()), UNNAMED)
}

/// What is wrong with the model's own nodes is not seen.
fn asked_with(random: &mut Random) -> Vec<u8> {
    let (mut model, formula) = judgings::draw(random);
    if model.atoms > 0 {
        let lost = random.below(model.atoms) as u16;
        lose(random, &mut model, lost);
    }
    judging_case(formula.text().as_bytes(), &model.text())
}
