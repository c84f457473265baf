//! The race of the programs, each from a file to a file.

use crate::clock::{timed, Of};
use crate::table::{Table, Times};
use crate::{compare, generate, plan, Result};
use std::fs::{self, File};
use std::path::Path;
use std::process::Command;

/// Another seed than from memory.
const SEED: u64 = 2;

/// The paths of the programs.
pub type Programs<'a> = [&'a str; 4];

/// Compares on every log, then times it; prints the table.
pub fn race(programs: Programs, folder: &Path, runs: usize, lines: usize) -> Result<()> {
    let path = folder.join("log");
    let answers = folder.join("answers");
    let mut table = Table::begin();
    for plan in plan::all() {
        let log = generate::log(&plan, lines, SEED);
        let accepted = compare::agree(&plan.name, &log)?;
        fs::write(&path, &log)?;
        same_outputs(programs, &plan.name, &path, &answers)?;
        let times = Times::in_turns(runs, |who| {
            let (time, result) = timed(Of::Children, || run(programs[who], &path, &answers));
            result.map(|()| time)
        })?;
        table.row(&plan.name, accepted, lines, &times);
    }
    table.end();
    Ok(())
}

/// Runs a program from a file to a file.
pub fn run(program: &str, log: &Path, answers: &Path) -> Result<()> {
    let status = Command::new(program)
        .stdin(File::open(log)?)
        .stdout(File::create(answers)?)
        .status()
        .map_err(|error| format!("{program}: {error}"))?;
    match status.success() {
        true => Ok(()),
        false => Err(format!("{program}: {status}").into()),
    }
}

/// Compares what the programs write.
pub fn same_outputs(programs: Programs, name: &str, log: &Path, answers: &Path) -> Result<()> {
    let mut outputs: [Vec<u8>; 4] = Default::default();
    for (output, program) in outputs.iter_mut().zip(programs) {
        run(program, log, answers)?;
        *output = fs::read(answers)?;
    }
    compare::same_answers(name, &outputs)
}
