//! The replay as one writes it first: boards changed in place, one loop over
//! the lines, and at each line every output of every driver counted by whole
//! periods.

mod board;
mod bus;
mod driver;
mod text;

use crate::chips::BAD_LINE;
use crate::{Answer, Outcome};
use bus::Bus;
use std::io::Write;

/// Refuses with the number unless the condition holds.
fn ensure(condition: bool, number: u64) -> Result<(), u64> {
    if condition {
        Ok(())
    } else {
        Err(number)
    }
}

/// The answers to a recording, and the totals at its end.
pub fn run(log: &[u8]) -> Outcome {
    let mut replay = Replay::default();
    let mut answers = Vec::with_capacity(log.len());
    for (index, line) in text::lines(log).enumerate() {
        let (code, value) = match replay.answer(line) {
            Ok(value) => (0, value),
            Err(code) => (code, 0),
        };
        let n = index + 1;
        writeln!(answers, "n={n} code={code} value={value}").expect("a vector takes any bytes");
    }
    let totals = replay.bus.totals();
    Outcome { answers, totals }
}

/// The bus, and the stamp of the last accepted line.
#[derive(Default)]
struct Replay {
    bus: Bus,
    stamp: Option<u32>,
}

impl Replay {
    fn answer(&mut self, line: &[u8]) -> Answer {
        let (stamp, event) = text::parse(line).ok_or(BAD_LINE)?;
        let elapsed = match self.stamp {
            Some(earlier) => stamp.wrapping_sub(earlier),
            None => 0,
        };
        let value = self.bus.step(elapsed.into(), event)?;
        self.stamp = Some(stamp);
        Ok(value)
    }
}
