//! The race from memory to memory: each takes a log and makes a vector of all
//! answers.

use crate::clock::{timed, Of};
use crate::table::{Table, Times};
use crate::{compare, generate, plan, Result};
use plain::REPLAYS;
use std::hint::black_box;
use std::time::Duration;

const SEED: u64 = 1;

/// Compares on every log, then times it; prints the table.
pub fn race(runs: usize, lines: usize) -> Result<()> {
    let mut table = Table::begin();
    for plan in plan::all() {
        let log = generate::log(&plan, lines, SEED);
        let accepted = compare::agree(&plan.name, &log)?;
        let times = Times::in_turns(runs, |who| Ok(time(who, black_box(&log))))?;
        table.row(&plan.name, accepted, lines, &times);
    }
    table.end();
    Ok(())
}

/// The time of one replay; the twin's is the first.
fn time(who: usize, log: &[u8]) -> Duration {
    match who {
        0 => timed(Of::Itself, || lamptwin::replay(log)).0,
        _ => timed(Of::Itself, || REPLAYS[who - 1].1(log)).0,
    }
}

/// Compares on every log, with several seeds.
pub fn check(lines: usize) -> Result<()> {
    let mut logs = 0;
    let mut accepted = 0;
    for plan in plan::all() {
        for seed in SEED..SEED + 5 {
            let name = format!("{}, seed {seed}", plan.name);
            accepted += compare::agree(&name, &generate::log(&plan, lines, seed))?;
            logs += 1;
        }
    }
    println!(
        "{logs} logs of {lines} lines, {accepted} lines accepted: all answers and totals agree"
    );
    Ok(())
}
