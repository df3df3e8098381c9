//! What walks are worth where they are too many to list: of all walks from a state only the last states and what
//! the walks met so far are kept, entry by entry.

/// For each last state whether a walk ends there that is worth false so far, and whether one that is worth true.
type Ends = Vec<[bool; 2]>;

/// Of the walks from each state the least and the greatest worth; `more` makes it of the worth so far and a mark.
pub fn worths(marks: &[bool], next: &[Vec<usize>], more: fn(bool, bool) -> bool) -> Vec<(bool, bool)> {
    (0..next.len()).map(|state| worth_from(state, marks, next, more)).collect()
}

/// Met by a walk if it is met at one of its places.
pub fn met(so_far: bool, mark: bool) -> bool {
    so_far || mark
}

/// Held by a walk if it is held at all of its places.
pub fn held(so_far: bool, mark: bool) -> bool {
    so_far && mark
}

fn worth_from(state: usize, marks: &[bool], next: &[Vec<usize>], more: fn(bool, bool) -> bool) -> (bool, bool) {
    let mut ends = vec![[false; 2]; next.len()];
    ends[state][marks[state] as usize] = true;
    for _ in 1..next.len() {
        let longer = with_one_more(&ends, marks, next, more);
        // What one more entry leaves as it was, all further ones leave too.
        if longer == ends {
            break;
        }
        ends = longer;
    }
    let ending = |worth: bool| ends.iter().any(|end| end[worth as usize]);
    let found: Vec<bool> = [false, true].into_iter().filter(|&worth| ending(worth)).collect();
    (found[0], found[found.len() - 1])
}

fn with_one_more(ends: &Ends, marks: &[bool], next: &[Vec<usize>], more: fn(bool, bool) -> bool) -> Ends {
    let mut longer = vec![[false; 2]; ends.len()];
    for (state, end) in ends.iter().enumerate() {
        for worth in [false, true].into_iter().filter(|&worth| end[worth as usize]) {
            next[state].iter().for_each(|&after| longer[after][more(worth, marks[after]) as usize] = true);
        }
    }
    longer
}
