//! Replay of a recorded evening in plain Rust, three times, to time the proved
//! twin against: `obvious` is what one writes first, `prompt` the fastest we
//! know that has every total up to date after every line, `best` the fastest
//! we know. All are written from docs/RULES.md and give the same.

#![forbid(unsafe_code)]

pub mod best;
mod blinker;
mod chips;
mod event;
pub mod obvious;
pub mod prompt;

/// The totals at the end of a recording: at 32 times position plus 2 times
/// output the lit ticks or steps, behind it the unlit ones; 0 where there is no
/// such output.
pub type Row = [u64; 256];

/// What a replay gives.
pub struct Outcome {
    /// One line each, `n=LINE code=CODE value=VALUE`.
    pub answers: Vec<u8>,
    pub totals: Row,
}

/// A value, or the number of a refusal.
type Answer = Result<u64, u64>;

/// A replay, from a recording to what it gives.
pub type Run = fn(&[u8]) -> Outcome;

/// Every replay, with its name.
pub const REPLAYS: [(&str, Run); 3] = [
    ("obvious", obvious::run),
    ("prompt", prompt::run),
    ("best", best::run),
];
