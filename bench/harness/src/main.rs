//! Races the proved twin against the plain replays; `bench/race` builds all
//! and calls it.

mod clock;
mod compare;
mod generate;
mod memory;
mod plan;
mod programs;
mod random;
mod season;
mod table;

use std::error::Error;
use std::process::ExitCode;

type Result<T> = std::result::Result<T, Box<dyn Error>>;

/// Who races, in the order of all tables.
const WHO: [&str; 4] = ["twin", "obvious", "prompt", "best"];

const USAGE: &str = "usage: harness check LINES
       harness memory RUNS LINES
       harness programs RUNS LINES FOLDER TWIN OBVIOUS PROMPT BEST
       harness season LINES FOLDER TWIN OBVIOUS PROMPT BEST";

fn main() -> ExitCode {
    let arguments: Vec<String> = std::env::args().skip(1).collect();
    let arguments: Vec<&str> = arguments.iter().map(String::as_str).collect();
    match run(&arguments) {
        Ok(()) => ExitCode::SUCCESS,
        Err(error) => {
            eprintln!("{error}");
            ExitCode::FAILURE
        }
    }
}

fn run(arguments: &[&str]) -> Result<()> {
    match arguments {
        ["check", lines] => memory::check(number(lines)?),
        ["memory", runs, lines] => memory::race(number(runs)?, number(lines)?),
        ["programs", runs, lines, folder, programs @ ..] => {
            let programs = programs.try_into().map_err(|_| USAGE)?;
            programs::race(programs, folder.as_ref(), number(runs)?, number(lines)?)
        }
        ["season", lines, folder, programs @ ..] => {
            let programs = programs.try_into().map_err(|_| USAGE)?;
            season::race(programs, folder.as_ref(), number(lines)?)
        }
        _ => Err(USAGE.into()),
    }
}

/// A number of lines or runs: at least 1.
fn number(text: &str) -> Result<usize> {
    let number = text.parse().ok().filter(|&number| number > 0);
    number.ok_or_else(|| format!("{text}: not a number from 1 on").into())
}
