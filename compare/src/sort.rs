//! The two sorts of logs: plain ones, and recorded ones, whose lines bear
//! stamps.

use crate::{generate, replay, text};

#[derive(Debug, Clone, Copy, PartialEq, Eq)]
pub enum Sort {
    Plain,
    Stamped,
}

impl Sort {
    /// The made-up log of a seed.
    pub fn log(self, seed: u64, lines: usize, damage: u64) -> Vec<u8> {
        match self {
            Sort::Plain => generate::log(seed, lines, damage),
            Sort::Stamped => generate::stamped_log(seed, lines, damage),
        }
    }

    /// The model's answers to a log.
    pub fn model(self, log: &[u8]) -> Vec<u8> {
        match self {
            Sort::Plain => text::run(log),
            Sort::Stamped => replay::run(log),
        }
    }

    /// The linked library's answers to a log.
    pub fn library(self, log: &[u8]) -> Vec<u8> {
        match self {
            Sort::Plain => lamptwin::run(log),
            Sort::Stamped => lamptwin::replay(log),
        }
    }
}
