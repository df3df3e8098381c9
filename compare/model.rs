//! The tables of a model and its text form, written.

pub const FALSE: u8 = 0;
pub const UNKNOWN: u8 = 1;
pub const TRUE: u8 = 2;

#[derive(Clone, Debug, PartialEq)]
pub struct Model {
    pub states: usize,
    pub atoms: usize,
    pub labels: Vec<u8>,
    pub initial: Vec<u8>,
    pub transitions: Vec<u16>,
    pub nodes: Vec<u16>,
}

impl Model {
    /// The lines of the text form without their line feeds.
    pub fn lines(&self) -> Vec<String> {
        let mut lines = vec![format!("states={}", self.states), format!("atoms={}", self.atoms)];
        let digits: String = self.initial.iter().map(|d| d.to_string()).collect();
        lines.push(format!("init={digits}"));
        for state in 0..self.states {
            let row = &self.labels[state * self.atoms..(state + 1) * self.atoms];
            lines.push(format!("label={}", letters(row)));
        }
        lines.push(format!("edges={}", self.transitions.len() / 2));
        lines.extend(self.transitions.chunks(2).map(|pair| format!("edge={}", joined(pair))));
        lines.push(format!("nodes={}", self.nodes.len() / 3));
        lines.extend(self.nodes.chunks(3).map(|node| format!("node={}", joined(node))));
        lines
    }

    pub fn text(&self) -> Vec<u8> {
        text_of(&self.lines())
    }

    /// Whether some node names each atom.
    pub fn names_every_atom(&self) -> bool {
        let named = |atom: usize| self.nodes.chunks_exact(3).any(|n| n[0] == 1 && n[1] as usize == atom);
        (0..self.atoms).all(named)
    }
}

pub fn text_of(lines: &[String]) -> Vec<u8> {
    lines.iter().flat_map(|line| line.bytes().chain([b'\n'])).collect()
}

/// Verdicts as the letters F, U, T.
pub fn letters(row: &[u8]) -> String {
    row.iter().map(|&value| ['F', 'U', 'T'][value as usize]).collect()
}

pub fn joined<T: ToString>(numbers: &[T]) -> String {
    numbers.iter().map(T::to_string).collect::<Vec<_>>().join(",")
}

/// For each state its successors; only for tables that are not refused.
pub fn successors(states: usize, transitions: &[u16]) -> Vec<Vec<usize>> {
    let mut lists = vec![Vec::new(); states];
    for pair in transitions.chunks(2) {
        lists[pair[0] as usize].push(pair[1] as usize);
    }
    lists
}
