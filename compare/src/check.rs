//! Comparison of the twin with the model on generated logs: the linked
//! library against the model, for recorded logs by their totals too, and the
//! built program against the library.

use crate::sort::Sort;
use crate::{replay, text, totals};
use std::io::{self, Write};
use std::process::{Command, Stdio};
use std::thread;

/// Shares of damage that the seeds take in turn.
const DAMAGE_SHARES: [u64; 8] = [0, 2, 5, 10, 1, 20, 40, 80];

/// Most runs of the twin spent on shortening a failing log.
const MAX_SHORTENING_RUNS: usize = 3000;

/// Which two answers are compared.
#[derive(Debug, Clone, Copy, PartialEq, Eq)]
pub enum Pair {
    ModelAndLibrary,
    /// The totals at the end of a recorded log, by the model and the library.
    Totals,
    LibraryAndProgram,
}

impl Pair {
    /// Those that a sort of logs has.
    fn of(sort: Sort) -> &'static [Pair] {
        match sort {
            Sort::Plain => &[Pair::ModelAndLibrary, Pair::LibraryAndProgram],
            Sort::Stamped => &[Pair::ModelAndLibrary, Pair::Totals, Pair::LibraryAndProgram],
        }
    }

    pub fn names(self) -> (&'static str, &'static str) {
        match self {
            Pair::ModelAndLibrary | Pair::Totals => ("model", "library"),
            Pair::LibraryAndProgram => ("library", "program"),
        }
    }

    /// Both answers to a log.
    pub fn answers(self, twin: Twin, log: &[u8]) -> io::Result<(Vec<u8>, Vec<u8>)> {
        let Twin { sort, program } = twin;
        Ok(match self {
            Pair::ModelAndLibrary => (sort.model(log), sort.library(log)),
            Pair::Totals => (
                totals::lines(&replay::totals(log)),
                totals::lines(&lamptwin::totals(log)),
            ),
            Pair::LibraryAndProgram => (sort.library(log), run_program(program, log)?),
        })
    }
}

/// The twin for a sort of logs, and the path of its program.
#[derive(Debug, Clone, Copy)]
pub struct Twin<'a> {
    pub sort: Sort,
    pub program: &'a str,
}

/// A log to which the two answers differ.
pub struct Mismatch {
    pub seed: u64,
    pub damage: u64,
    pub pair: Pair,
    pub log: Vec<u8>,
    pub expected: Vec<u8>,
    pub actual: Vec<u8>,
}

impl Mismatch {
    /// The lines of the log up to the one whose answer differs, or all: the
    /// totals are those at its end.
    fn lines_needed(&self) -> usize {
        match self.pair {
            Pair::Totals => text::lines(&self.log).count(),
            _ => first_difference(&self.expected, &self.actual),
        }
    }
}

/// What was compared, and the first mismatch.
pub struct Outcome {
    pub logs: u64,
    pub lines: u64,
    pub mismatch: Option<Mismatch>,
}

pub fn damage_share(seed: u64) -> u64 {
    DAMAGE_SHARES[(seed % DAMAGE_SHARES.len() as u64) as usize]
}

/// Compares on the logs of the seeds, from the first on, until answers differ.
pub fn compare(twin: Twin, first: u64, seeds: u64, lines: usize) -> io::Result<Outcome> {
    let mut outcome = Outcome {
        logs: 0,
        lines: 0,
        mismatch: None,
    };
    for seed in first..first + seeds {
        let log = twin.sort.log(seed, lines, damage_share(seed));
        outcome.logs += 1;
        outcome.lines += text::lines(&log).count() as u64;
        outcome.mismatch = difference(twin, seed, &log)?;
        if outcome.mismatch.is_some() {
            break;
        }
    }
    Ok(outcome)
}

fn difference(twin: Twin, seed: u64, log: &[u8]) -> io::Result<Option<Mismatch>> {
    for &pair in Pair::of(twin.sort) {
        let (expected, actual) = pair.answers(twin, log)?;
        if expected != actual {
            return Ok(Some(Mismatch {
                seed,
                damage: damage_share(seed),
                pair,
                log: log.to_vec(),
                expected,
                actual,
            }));
        }
    }
    Ok(None)
}

/// The standard output of the program when fed the log.
pub fn run_program(program: &str, log: &[u8]) -> io::Result<Vec<u8>> {
    let mut child = Command::new(program)
        .stdin(Stdio::piped())
        .stdout(Stdio::piped())
        .spawn()?;
    let mut input = child.stdin.take().expect("standard input is piped");
    let log = log.to_vec();
    // A program that stops reading early shows in its output.
    let writer = thread::spawn(move || drop(input.write_all(&log)));
    let output = child.wait_with_output()?;
    writer.join().expect("the writer does not panic");
    Ok(output.stdout)
}

/// The number of the first line that differs, from 1.
pub fn first_difference(expected: &[u8], actual: &[u8]) -> usize {
    let same = text::lines(expected)
        .zip(text::lines(actual))
        .take_while(|(left, right)| left == right);
    same.count() + 1
}

/// Line `number` (from 1) as text, or a note that it is missing.
pub fn line_text(bytes: &[u8], number: usize) -> String {
    match text::lines(bytes).nth(number - 1) {
        Some(line) => line.escape_ascii().to_string(),
        None => "(no line)".to_string(),
    }
}

/// The shortest log found to which the two answers still differ.
pub fn shorten_for(twin: Twin, mismatch: &Mismatch) -> Vec<u8> {
    let mut runs = 0;
    shorten(&mismatch.log, mismatch.lines_needed(), |log| {
        runs += 1;
        let answers = mismatch.pair.answers(twin, log);
        runs <= MAX_SHORTENING_RUNS && answers.is_ok_and(|(expected, actual)| expected != actual)
    })
}

/// Drops lines after the first difference, then ever smaller groups of lines,
/// while the log still fails.
pub fn shorten(log: &[u8], first: usize, mut fails: impl FnMut(&[u8]) -> bool) -> Vec<u8> {
    let mut lines: Vec<&[u8]> = log.split_inclusive(|&byte| byte == b'\n').collect();
    let head: Vec<u8> = lines[..first.min(lines.len())].concat();
    if fails(&head) {
        lines.truncate(first);
    }
    let mut group = lines.len().div_ceil(2).max(1);
    loop {
        let dropped = drop_groups(&mut lines, group, &mut fails);
        if group == 1 && !dropped {
            return lines.concat();
        }
        group = group.div_ceil(2);
    }
}

/// Drops each group of lines that the failure does not need, last group first.
fn drop_groups(
    lines: &mut Vec<&[u8]>,
    group: usize,
    fails: &mut impl FnMut(&[u8]) -> bool,
) -> bool {
    let mut dropped = false;
    let mut end = lines.len();
    while end > 0 {
        let start = end.saturating_sub(group);
        let rest = [&lines[..start], &lines[end..]].concat();
        if fails(&rest.concat()) {
            *lines = rest;
            dropped = true;
        }
        end = start;
    }
    dropped
}

#[cfg(test)]
mod tests {
    use super::*;

    #[test]
    fn the_first_difference_is_found() {
        assert_eq!(first_difference(b"a\nb\n", b"a\nc\n"), 2);
        assert_eq!(first_difference(b"a\nb\n", b"a\n"), 2);
        assert_eq!(first_difference(b"", b"a\n"), 1);
        assert_eq!(line_text(b"a\n\xFF", 2), "\\xff");
        assert_eq!(line_text(b"a\n", 2), "(no line)");
    }

    #[test]
    fn needed_lines_stay() {
        for sort in [Sort::Plain, Sort::Stamped] {
            let log = sort.log(5, 400, 10);
            let third = text::lines(&log).nth(120).unwrap().to_vec();
            let fails = |log: &[u8]| {
                let wanted = |line: &[u8]| line == third || line.ends_with(b"ev=stop");
                text::lines(log).filter(|line| wanted(line)).count() >= 2
            };
            let short = shorten(&log, 400, fails);
            assert_eq!(text::lines(&short).count(), 2);
        }
    }

    #[test]
    fn an_empty_log_can_be_shortened() {
        assert_eq!(shorten(b"", 1, |_| true), b"");
    }
}
