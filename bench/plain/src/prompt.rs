//! The fastest replay that we know with every total up to date after every
//! line: `best`, with no time put off.

use crate::best::{self, Replay};
use crate::Outcome;
use std::io;

/// The answers to a recording, and the totals at its end.
pub fn run(log: &[u8]) -> Outcome {
    Replay::<false>::run(log)
}

/// Replays standard input to standard output.
pub fn program() -> io::Result<()> {
    best::program::<false>()
}
