//! For tests: what happens at each line of a log, and how often.

use crate::model::Event;
use crate::replay::{self, Replay};
use crate::sort::Sort;
use crate::text;
use std::collections::BTreeMap;

/// A line of a log, with the replay before it and its answer's code.
pub struct Line<'a> {
    pub bytes: &'a [u8],
    pub before: Replay,
    pub code: u64,
}

/// All lines of a log. A plain log's have no stamps, and no time passes.
pub fn lines_of(sort: Sort, log: &[u8]) -> Vec<Line<'_>> {
    let mut replay = Replay::default();
    text::lines(log)
        .map(|bytes| {
            let before = replay.clone();
            let (code, _) = match sort {
                Sort::Plain => text::answer(&mut replay.bus, bytes),
                Sort::Stamped => replay.answer(bytes),
            };
            Line {
                bytes,
                before,
                code,
            }
        })
        .collect()
}

impl Line<'_> {
    /// The time that the line would let pass, and its event.
    pub fn event(&self, sort: Sort) -> Option<(u64, Event)> {
        match sort {
            Sort::Plain => Some((0, text::parse(self.bytes)?)),
            Sort::Stamped => {
                let (stamp, event) = replay::parse(self.bytes)?;
                Some((self.before.elapsed(stamp).into(), event))
            }
        }
    }
}

/// How often each situation occurs.
#[derive(Default)]
pub struct Counts(pub BTreeMap<String, usize>);

impl Counts {
    pub fn count(&mut self, name: impl Into<String>, holds: bool) {
        *self.0.entry(name.into()).or_default() += holds as usize;
    }

    pub fn assert_all_occur(&self) {
        assert!(self.0.values().all(|&count| count >= 5), "{:#?}", self.0);
    }
}
