//! Worked cases: pairs of an input and the whole output asked for it.

use compare::sort::Sort;
use compare::{replay, totals};
use std::fs;
use std::path::{Path, PathBuf};

/// The inputs in a folder of worked cases.
fn inputs(folder: &str) -> Vec<PathBuf> {
    let tests = Path::new(env!("CARGO_MANIFEST_DIR")).join("../tests");
    let mut paths: Vec<PathBuf> = fs::read_dir(tests.join(folder))
        .unwrap()
        .map(|entry| entry.unwrap().path())
        .filter(|path| path.extension().is_some_and(|end| end == "in"))
        .collect();
    paths.sort();
    paths
}

fn assert_answered(folder: &str, answer: impl Fn(&[u8]) -> Vec<u8>) {
    let inputs = inputs(folder);
    assert!(!inputs.is_empty());
    let mut failed = Vec::new();
    for path in inputs {
        let input = fs::read(&path).unwrap();
        let expected = fs::read(path.with_extension("out")).unwrap();
        if answer(&input) != expected {
            failed.push(path);
        }
    }
    assert!(failed.is_empty(), "failed: {failed:?}");
}

#[test]
fn all_cases_pass() {
    assert_answered("cases", |input| Sort::Plain.model(input));
}

#[test]
fn all_replays_pass() {
    assert_answered("replays", |input| Sort::Stamped.model(input));
}

/// A line for each output that has waited, at the end of a recorded log.
#[test]
fn all_totals_pass() {
    assert_answered("totals", |input| totals::lines(&replay::totals(input)));
}
