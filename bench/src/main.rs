//! Times the proved windows against plain Rust, on the same memories. README.md and docs/performance.md say what it prints.

mod check;
mod clock;
mod contenders;
mod experiments;
mod goals;
mod library;
mod machine;
mod measure;
mod plot;
mod raw;
mod scene;
mod simple;
mod table;

use std::process::ExitCode;

use crate::experiments::{layers, openings, sizes};

fn main() -> ExitCode {
    let words: Vec<String> = std::env::args().skip(1).collect();
    let words: Vec<&str> = words.iter().map(String::as_str).collect();
    match words[..] {
        [plot] => run(plot),
        ["once", call, lines] => once(call, lines),
        _ => {
            eprintln!("bench PLOT.svg        prints the tables and the goals, and draws the plot");
            eprintln!("bench once CALL LINES makes one call alone, for a tool that counts instructions");
            ExitCode::FAILURE
        }
    }
}

fn run(plot: &str) -> ExitCode {
    check::answers();
    println!("{}\n", machine::line());
    let sizes = sizes();
    table::sizes(&sizes);
    let layers = layers();
    table::layers(&layers);
    let openings = openings();
    table::openings(&openings);
    goals::print(&sizes, &layers, &openings);
    match std::fs::write(plot, plot::draw(&sizes)) {
        Ok(()) => ExitCode::SUCCESS,
        Err(error) => {
            eprintln!("{plot}: {error}");
            ExitCode::FAILURE
        }
    }
}

fn once(call: &str, lines: &str) -> ExitCode {
    let lines = lines.parse().ok().filter(|&lines| lines <= experiments::ONCE_LINES);
    let done = lines.and_then(|lines| experiments::once(call, lines));
    match done {
        Some(true) => ExitCode::SUCCESS,
        _ => {
            eprintln!(
                "bench once: the calls are {}, for at most {} lines",
                experiments::ONCE_CALLS,
                experiments::ONCE_LINES
            );
            ExitCode::FAILURE
        }
    }
}
