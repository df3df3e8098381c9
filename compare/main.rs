//! An independent second program: it makes cases, knows their answers by brute force, and compares.
#![forbid(unsafe_code)]

mod agreeing;
mod along;
mod answers;
mod askings;
mod breaks;
mod formula;
mod frames;
mod generate;
mod graphs;
mod judge;
mod kinds;
mod labelling;
mod limits;
mod misasked;
mod model;
mod models;
mod naming;
mod paths;
mod pictures;
mod question;
mod random;
mod reader;
mod readings;
mod refusals;
mod selftest;
mod spoiled;
mod statistics;
mod walks;
mod wider;

use kinds::Kinds;
use std::io::{Read, Write};
use std::process::ExitCode;

const USAGE: &str = "compare make COUNT SEED INPUT_FILE ANSWER_FILE
    writes COUNT fresh cases and their answers
compare store COUNT FORMULAS READINGS KINDS NAMING PICTURES SEED INPUT_FILE ANSWER_FILE [MODEL_FILE ..]
    writes the model files' cases, COUNT of models and paths, the listed ones of formulas, FORMULAS random ones,
    the listed ones of measurements, READINGS random ones, all of the kinds up to 6; then the model files' with
    a kind above 6, the listed ones of such kinds, KINDS random ones over all kinds; then the listed ones of atoms
    that are named or not, NAMING random ones; then the listed ones of pictures, PICTURES random ones
compare explain INPUT_FILE N
    prints case N (from 0) and its expected answer
compare agree INPUT_FILE GOT
    holds what a program answered to the cases, and tells the first whose answer is not as expected
compare shown INPUT_FILE OUTPUT_FILE
    writes the cases that ask for a picture alone, each with its picture shown
compare answer
    reads frames on standard input and writes the expected answers on standard output
compare statistics COUNT SEED
    tells what the cases of a seed contain
compare selftest
    runs the worked cases";

fn main() -> ExitCode {
    let words: Vec<String> = std::env::args().skip(1).collect();
    let words: Vec<&str> = words.iter().map(String::as_str).collect();
    let done = match words[..] {
        ["make", count, seed, input, answers] => make(count, seed, input, answers),
        ["store", count, formulas, readings, kinds, naming, pictures, seed, input, answers, ref models @ ..] => {
            store([count, formulas, readings, kinds, naming, pictures], seed, [input, answers], models)
        }
        ["explain", input, number] => explain(input, number),
        ["agree", input, got] => agree(input, got),
        ["shown", input, output] => shown(input, output),
        ["answer"] => answer(),
        ["statistics", count, seed] => tell_statistics(count, seed),
        ["selftest"] => Ok(selftest::run()),
        _ => Err(String::from(USAGE)),
    };
    done.unwrap_or_else(|message| {
        eprintln!("{message}");
        ExitCode::from(2)
    })
}

fn number<T: std::str::FromStr>(word: &str) -> Result<T, String> {
    word.parse().map_err(|_| format!("{word} is no number"))
}

fn load(file: &str) -> Result<Vec<u8>, String> {
    std::fs::read(file).map_err(|error| format!("{file}: {error}"))
}

fn save(file: &str, bytes: &[u8]) -> Result<(), String> {
    std::fs::write(file, bytes).map_err(|error| format!("{file}: {error}"))
}

fn make(count: &str, seed: &str, input: &str, answers: &str) -> Result<ExitCode, String> {
    let (count, seed): (usize, u64) = (number(count)?, number(seed)?);
    write_cases(&(0..count).map(|place| generate::mixed(seed, place)).collect::<Vec<_>>(), input, answers)
}

/// What is added comes behind what was there, so that no stored case moves.
fn store(counts: [&str; 6], seed: &str, files: [&str; 2], models: &[&str]) -> Result<ExitCode, String> {
    let (count, formulas): (usize, usize) = (number(counts[0])?, number(counts[1])?);
    let (readings, kinds): (usize, usize) = (number(counts[2])?, number(counts[3])?);
    let (naming, pictures): (usize, usize) = (number(counts[4])?, number(counts[5])?);
    let seed: u64 = number(seed)?;
    let models = models.iter().map(|file| load_model(file)).collect::<Result<Vec<_>, String>>()?;
    let (mut cases, since): (Vec<_>, Vec<_>) = models.into_iter().partition(|case| of_first_kinds(case));
    cases.extend((0..count).map(|place| generate::case(Kinds::First, seed, place)));
    cases.extend(formula::listed::cases());
    cases.extend((0..formulas).map(|place| formula::mixture::case(Kinds::First, seed, place)));
    cases.extend(readings::listed::cases());
    cases.extend((0..readings).map(|place| readings::mixture::case(seed, place)));
    cases.extend(since);
    cases.extend(wider::listed::cases());
    cases.extend(formula::wider::cases());
    cases.extend((0..kinds).map(|place| wider::mixture::case(seed, place)));
    cases.extend(naming::listed::cases());
    cases.extend((0..naming).map(|place| naming::mixture::case(seed, place)));
    cases.extend(pictures::listed::cases());
    cases.extend((0..pictures).map(|place| pictures::mixture::case(seed, place)));
    write_cases(&cases, files[0], files[1])
}

fn load_model(file: &str) -> Result<Vec<u8>, String> {
    let text = load(file)?;
    match text.len() > reader::MOST_BYTES + 1 {
        true => Err(format!("{file}: a case holds at most {} bytes", reader::MOST_BYTES + 1)),
        false => Ok(limits::model_case(text)),
    }
}

/// Whether a model's case has no kind above 6, or no kinds at all.
fn of_first_kinds(case: &[u8]) -> bool {
    reader::read(&case[2..]).map_or(true, |model| Kinds::First.hold(&model.nodes))
}

fn write_cases(cases: &[Vec<u8>], input: &str, answers: &str) -> Result<ExitCode, String> {
    save(input, &cases.iter().flat_map(|case| frames::frame(case)).collect::<Vec<u8>>())?;
    save(answers, &ended_answers(cases.iter().map(Vec::as_slice)))?;
    Ok(ExitCode::SUCCESS)
}

/// Each answer followed by a line with a single dot.
fn ended_answers<'a>(cases: impl Iterator<Item = &'a [u8]>) -> Vec<u8> {
    cases.flat_map(|case| (answers::answer(case) + ".\n").into_bytes()).collect()
}

/// Printed as far as the reader wants it; a closed pipe is no error.
fn show(text: &str) {
    let _ = std::io::stdout().write_all(text.as_bytes());
}

fn explain(input: &str, place: &str) -> Result<ExitCode, String> {
    let (input, place): (Vec<u8>, usize) = (load(input)?, number(place)?);
    let cases = frames::cases(&input)?;
    let case = cases.get(place).ok_or(format!("there are {} cases", cases.len()))?;
    let text = frames::readable(case, usize::MAX);
    show(&format!("case {place}, {} bytes:\n{text}expected:\n{}", case.len(), answers::answer(case)));
    Ok(ExitCode::SUCCESS)
}

fn agree(input: &str, got: &str) -> Result<ExitCode, String> {
    let (input, got) = (load(input)?, load(got)?);
    let (cases, got) = (frames::cases(&input)?, frames::answers(&got));
    let places = agreeing::differing(&cases, &got);
    if let Some(&first) = places.first() {
        let text =
            |found: &[&[u8]]| found.get(first).map_or(String::from("(nothing)\n"), |t| frames::readable(t, 4_000));
        let expected = cases.get(first).map_or(String::from("(nothing)\n"), |case| answers::answer(case) + ".\n");
        let expected = frames::readable(expected.as_bytes(), 4_000);
        show(&format!("case {first}:\n{}expected:\n{expected}got:\n{}", text(&cases), text(&got)));
    }
    show(&format!("{} cases, {} differences\n", cases.len(), places.len()));
    Ok(ExitCode::from(!places.is_empty() as u8))
}

fn shown(input: &str, output: &str) -> Result<ExitCode, String> {
    let input = load(input)?;
    let cases = frames::cases(&input)?.into_iter().filter_map(pictures::shown::of_word);
    save(output, &cases.flat_map(|case| frames::frame(&case)).collect::<Vec<u8>>())?;
    Ok(ExitCode::SUCCESS)
}

fn answer() -> Result<ExitCode, String> {
    let mut input = Vec::new();
    std::io::stdin().read_to_end(&mut input).map_err(|error| error.to_string())?;
    let answers = ended_answers(frames::cases(&input)?.into_iter());
    std::io::stdout().write_all(&answers).map_err(|error| error.to_string())?;
    Ok(ExitCode::SUCCESS)
}

fn tell_statistics(count: &str, seed: &str) -> Result<ExitCode, String> {
    statistics::print(number(count)?, number(seed)?);
    Ok(ExitCode::SUCCESS)
}
