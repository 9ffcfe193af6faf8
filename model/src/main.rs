//! `model`: random cases, what the model answers to cases, and what occurs in them. See README.md.

use std::io::{self, Read, Write};
use std::process::ExitCode;

use model::case::{Case, parse};
use model::generate::{TWIN, case, differs, twin};
use model::play::answers;
use model::stats::{Counts, choose, count};

const HELP: &str =
    "model cases SEED COUNT           random cases, a twin after every fourth where there is one
model choose SEED COUNT MOST     of these at most MOST, in which all occurs that occurs in them
model answers < cases            what the model answers
model stats < cases              what occurs in them, and how often
model twins < cases              whether each twin left what is below its top as its case does
";

fn main() -> ExitCode {
    let words: Vec<String> = std::env::args().skip(1).collect();
    let words: Vec<&str> = words.iter().map(String::as_str).collect();
    match run(&words) {
        Ok(()) => ExitCode::SUCCESS,
        Err(why) => {
            eprintln!("model: {why}");
            ExitCode::FAILURE
        }
    }
}

fn run(words: &[&str]) -> Result<(), String> {
    let out = &mut io::BufWriter::new(io::stdout().lock());
    match words {
        ["cases", seed, count] => {
            let (seed, count) = (number(seed)?, number(count)?);
            for index in 0..count {
                for case in made(seed, index) {
                    put(out, &case.to_string())?;
                }
            }
        }
        ["choose", seed, count, most] => {
            let (seed, count) = (number(seed)?, number(count)?);
            let groups: Vec<Vec<Case>> = (0..count).map(|index| made(seed, index)).collect();
            for case in choose(&groups, number(most)? as usize) {
                put(out, &case.to_string())?;
            }
        }
        ["answers"] => {
            for case in read_cases()? {
                put(out, &answers(&case))?;
            }
        }
        ["stats"] => {
            let mut counts = Counts::new();
            for case in read_cases()? {
                count(&mut counts, &case);
            }
            for (thing, times) in counts {
                put(out, &format!("{times:8} {thing}\n"))?;
            }
        }
        ["twins"] => compare_twins(&read_cases()?)?,
        _ => return Err(format!("not understood\n{HELP}")),
    }
    out.flush().map_err(|error| error.to_string())
}

fn number(word: &str) -> Result<u64, String> {
    word.parse().map_err(|_| format!("{word:?} is no number"))
}

fn put(out: &mut impl Write, text: &str) -> Result<(), String> {
    out.write_all(text.as_bytes())
        .map_err(|error| error.to_string())
}

fn read_cases() -> Result<Vec<Case>, String> {
    let mut text = String::new();
    let read = io::stdin().read_to_string(&mut text);
    read.map_err(|error| error.to_string())?;
    parse(&text)
}

/// The case of an index, and its twin where it is to have one.
fn made(seed: u64, index: u64) -> Vec<Case> {
    let first = case(seed, index);
    let second = match index % 4 {
        3 => twin(&first, seed, index),
        _ => None,
    };
    [Some(first), second].into_iter().flatten().collect()
}

/// A twin stands right after its case.
fn compare_twins(cases: &[Case]) -> Result<(), String> {
    let mut compared = 0;
    for pair in cases.windows(2) {
        if pair[1].name == format!("{}{TWIN}", pair[0].name) {
            compared += 1;
            if let Some(why) = differs(&answers(&pair[0]), &answers(&pair[1])) {
                return Err(format!("{} and its twin differ: {why}", pair[0].name));
            }
        }
    }
    println!("{compared} twins leave what is below the top as their cases do");
    Ok(())
}
