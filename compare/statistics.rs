//! What a run of cases contains, counted.

use crate::{answers, frames, generate, judge, reader, readings};
use std::collections::BTreeMap;

#[derive(Default)]
struct Counts {
    cases: BTreeMap<String, usize>,
    answers: BTreeMap<(char, String), usize>,
    last_rows: BTreeMap<char, usize>,
    kinds: BTreeMap<u16, usize>,
    verdicts: BTreeMap<char, usize>,
    walked: usize,
    input_bytes: usize,
    answer_bytes: usize,
}

pub fn print(count: usize, seed: u64) {
    let mut counts = Counts::default();
    for number in 0..count {
        let case = generate::mixed(seed, number);
        let answer = answers::answer(&case);
        counts.input_bytes += frames::frame(&case).len();
        counts.answer_bytes += answer.len() + 2;
        counts.add(&case, &answer);
    }
    println!("{count} cases of seed {seed}: {}", line(&counts.cases));
    println!(
        "accepted models' verdicts: {}; values in their last rows: {}",
        line(&counts.verdicts),
        line(&counts.last_rows)
    );
    println!("accepted models judged by listing every walk too: {}", counts.walked);
    println!("their nodes by kind: {}", line(&counts.kinds));
    for kind in ['M', 'F', 'N', 'C', 'R', 'P', 'K', 'Q', 'V', 'D', 'L', 'W', 'S', 'X'] {
        let of_kind: BTreeMap<String, usize> =
            counts.answers.iter().filter(|((k, _), _)| *k == kind).map(|((_, a), n)| (a.clone(), *n)).collect();
        println!("answers to {kind}: {}", line(&of_kind));
    }
    println!("bytes: {} of frames, {} of answers", counts.input_bytes, counts.answer_bytes);
}

fn line<K: ToString>(counts: &BTreeMap<K, usize>) -> String {
    counts.iter().map(|(name, count)| format!("{} {count}", name.to_string())).collect::<Vec<_>>().join(", ")
}

impl Counts {
    fn add(&mut self, case: &[u8], answer: &str) {
        let kind = case[0] as char;
        *self.cases.entry(kind.to_string()).or_default() += 1;
        let names = match kind {
            'V' | 'D' | 'L' => readings::answering::names(case, answer),
            _ => vec![name(kind, answer)],
        };
        names.into_iter().for_each(|name| *self.answers.entry((kind, name)).or_default() += 1);
        if !['M', 'Q'].contains(&kind) || !answer.starts_with("answer=0\n") {
            return;
        }
        let last = answer.lines().rfind(|line| line.starts_with("row=")).unwrap();
        last[4..].chars().for_each(|letter| *self.last_rows.entry(letter).or_default() += 1);
        let verdict = answer.trim_end().chars().last().unwrap();
        *self.verdicts.entry(verdict).or_default() += 1;
        if kind == 'Q' {
            return;
        }
        let model = reader::read(&case[2..]).expect("an accepted model");
        self.walked += judge::judge_whole(&model).is_ok_and(|judged| judged.by_walks) as usize;
        model.nodes.chunks(3).for_each(|node| *self.kinds.entry(node[0]).or_default() += 1);
    }
}

/// A refusal by its number, otherwise what kind of answer it is.
fn name(kind: char, answer: &str) -> String {
    let paths = answer.lines().filter(|line| line.starts_with("path=")).count();
    let refusal = answer.strip_prefix("answer=").and_then(|rest| rest.trim_end().parse::<usize>().ok());
    match (refusal, kind) {
        (Some(number), _) => format!("refused {number:02}:"),
        (None, 'M' | 'R' | 'P' | 'K' | 'Q') => String::from("accepted:"),
        (None, 'F') if answer.ends_with("more\n") => String::from("more than 200 paths:"),
        (None, 'F') if paths == 1 => String::from("one path:"),
        (None, 'F') if paths > 1 => String::from("several paths:"),
        (None, 'N') if paths == 1 => String::from("a path:"),
        (None, 'W' | 'S') if answer.starts_with("picture\n") => String::from("a picture:"),
        _ => format!("{}:", answer.trim_end()),
    }
}
