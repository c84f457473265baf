//! The fastest replay that we know in safe Rust; `prompt` is the same without
//! `DEFER`.
//!
//! With it nothing is done for a board that a line does not change: a line's
//! time is added to one clock, and a board counts its outputs' ticks up to that
//! clock only when something that its lamps depend on changes. Without it every
//! driver counts at every line. Sets of boards are the bits of a byte, as in a
//! put's value. Lines are read eight bytes at a time, where they stand, and an
//! answer is the last one's text with a number changed.

mod answers;
mod blinker;
mod bus;
mod driver;
mod parse;
mod program;

pub use program::program;

use crate::chips::BAD_LINE;
use crate::event::Event;
use crate::{Answer, Outcome};
use answers::Answers;
use bus::Bus;
use parse::{Actor, Window, WINDOW};

/// The answers to a recording, and the totals at its end.
pub fn run(log: &[u8]) -> Outcome {
    Replay::<true>::run(log)
}

/// A replay under way, which puts time off or not.
pub(crate) struct Replay<const DEFER: bool> {
    recorded: Recorded<DEFER>,
    answers: Answers,
}

/// The bus, and the stamp of the last accepted line, once there is one.
struct Recorded<const DEFER: bool> {
    bus: Bus<DEFER>,
    stamp: Option<u32>,
}

impl<const DEFER: bool> Actor for Recorded<DEFER> {
    #[inline(always)]
    fn act(&mut self, stamp: u32, event: Event) -> Answer {
        let earlier = self.stamp.unwrap_or(stamp);
        let value = self.bus.step(stamp.wrapping_sub(earlier).into(), event)?;
        self.stamp = Some(stamp);
        Ok(value)
    }
}

impl<const DEFER: bool> Replay<DEFER> {
    pub fn run(log: &[u8]) -> Outcome {
        let mut replay = Self::with_room(log.len());
        replay.feed(log);
        Outcome {
            totals: replay.recorded.bus.totals(),
            answers: replay.answers.into_bytes(),
        }
    }

    /// On an empty bus, with room for answers of that many bytes.
    pub fn with_room(bytes: usize) -> Self {
        Replay {
            recorded: Recorded {
                bus: Bus::new(),
                stamp: None,
            },
            answers: Answers::with_room(bytes),
        }
    }

    /// Replays whole lines; the last line feed may lack.
    pub fn feed(&mut self, lines: &[u8]) {
        let mut rest = lines;
        while let Some(window) = rest.first_chunk() {
            let length = self.line(window, rest);
            rest = &rest[length..];
        }
        // Of the last lines a copy, so that each has a whole window.
        let mut copy = [b'\n'; 2 * WINDOW];
        copy[..rest.len()].copy_from_slice(rest);
        let mut at = 0;
        while at < rest.len() {
            let window = copy[at..]
                .first_chunk()
                .expect("a line starts in the first half");
            at += self.line(window, &copy[at..]);
        }
    }

    /// The answers since they were last cleared.
    pub fn answers(&self) -> &[u8] {
        self.answers.bytes()
    }

    pub fn clear_answers(&mut self) {
        self.answers.clear();
    }

    /// Answers the line that the bytes start with; gives its length with its
    /// line feed.
    #[inline(always)]
    fn line(&mut self, window: &Window, bytes: &[u8]) -> usize {
        let Some((answer, length)) = parse::line(window, &mut self.recorded) else {
            self.answers.refused(BAD_LINE);
            let end = bytes.iter().position(|&byte| byte == b'\n');
            return end.map_or(bytes.len(), |end| end + 1);
        };
        match answer {
            Ok(value) => self.answers.done(value),
            Err(number) => self.answers.refused(number),
        }
        length
    }
}
