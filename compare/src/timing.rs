//! How long the model and the linked library take on the same log. Both read
//! it from memory, start with an empty bus and make a vector of answers.
//!
//! How long some lines of a log take is seen by timing it with them and
//! without them; the difference is their time. So the built program can be
//! timed too.

use crate::check::run_program;
use crate::model::Event;
use crate::sort::Sort;
use crate::text;
use std::hint::black_box;
use std::io;
use std::time::{Duration, Instant};

/// The logs that are timed: these seeds' sensible traffic.
pub const SEEDS: [u64; 5] = [1, 2, 3, 4, 5];

/// The median time of each over the runs.
pub struct Times {
    pub lines: usize,
    pub model: Duration,
    pub library: Duration,
}

impl Times {
    pub fn lines_per_second(&self, time: Duration) -> f64 {
        self.lines as f64 / time.as_secs_f64()
    }

    /// The library's time over the model's.
    pub fn ratio(&self) -> f64 {
        self.library.as_secs_f64() / self.model.as_secs_f64()
    }
}

/// Runs both in turn, `runs` times each, after one run that is not timed.
pub fn time(sort: Sort, log: &[u8], runs: usize) -> Times {
    assert!(sort.model(log) == sort.library(log), "the answers differ");
    let mut model = Vec::new();
    let mut library = Vec::new();
    for _ in 0..runs {
        model.push(elapsed(|| sort.model(black_box(log))));
        library.push(elapsed(|| sort.library(black_box(log))));
    }
    Times {
        lines: text::lines(log).count(),
        model: median(model),
        library: median(library),
    }
}

/// How long one run takes.
pub fn elapsed<T>(run: impl FnOnce() -> T) -> Duration {
    let start = Instant::now();
    black_box(run());
    start.elapsed()
}

/// The middle one, or the larger of the two in the middle.
pub fn median(mut times: Vec<Duration>) -> Duration {
    times.sort();
    times[times.len() / 2]
}

/// A log, and the same without the lines that are timed.
pub struct Log {
    pub whole: Vec<u8>,
    pub rest: Vec<u8>,
}

impl Log {
    /// How many lines are timed.
    pub fn lines(&self) -> usize {
        let lines = |log: &[u8]| text::lines(log).count();
        lines(&self.whole) - lines(&self.rest)
    }
}

pub fn lines_of<'a>(events: impl IntoIterator<Item = &'a Event>) -> Vec<u8> {
    let lines: Vec<String> = events
        .into_iter()
        .map(|&event| text::format_event(event) + "\n")
        .collect();
    lines.concat().into_bytes()
}

/// A message to a 7-bit address, from START to STOP.
pub fn write_message(events: &mut Vec<Event>, address: u64, bytes: &[u8]) {
    events.push(Event::Start);
    events.push(Event::Put { byte: 2 * address });
    for &byte in bytes {
        events.push(Event::Put { byte: byte.into() });
    }
    events.push(Event::Stop);
}

/// The median time of a whole log, and of the rest of it.
pub struct LineTime {
    pub whole: Duration,
    pub rest: Duration,
    pub lines: usize,
}

impl LineTime {
    /// The time of all lines that are timed.
    pub fn all(&self) -> Duration {
        self.whole.saturating_sub(self.rest)
    }

    pub fn nanoseconds_a_line(&self) -> f64 {
        self.all().as_nanos() as f64 / self.lines as f64
    }

    /// The time of the lines over another's.
    pub fn ratio(&self, other: &LineTime) -> f64 {
        self.all().as_secs_f64() / other.all().as_secs_f64()
    }
}

pub struct LineTimes {
    pub model: LineTime,
    pub library: LineTime,
    pub program: LineTime,
}

/// Runs all three in turn, `runs` times each, on the whole log and on the
/// rest, after one run that is not timed and whose answers are compared.
pub fn time_lines(program: &str, log: &Log, runs: usize) -> io::Result<LineTimes> {
    let model = |log: &[u8]| text::run(log);
    let library = |log: &[u8]| lamptwin::run(log);
    let built = |log: &[u8]| run_program(program, log);
    for part in [&log.whole, &log.rest] {
        let answers = model(part);
        if answers != library(part) || answers != built(part)? {
            return Err(io::Error::other("the answers differ"));
        }
    }
    let mut times: [Vec<Duration>; 6] = Default::default();
    for _ in 0..runs {
        times[0].push(elapsed(|| model(&log.whole)));
        times[1].push(elapsed(|| library(&log.whole)));
        times[2].push(elapsed(|| built(&log.whole)));
        times[3].push(elapsed(|| model(&log.rest)));
        times[4].push(elapsed(|| library(&log.rest)));
        times[5].push(elapsed(|| built(&log.rest)));
    }
    let [a, b, c, d, e, f] = times.map(median);
    let lines = log.lines();
    let of = |whole, rest| LineTime { whole, rest, lines };
    Ok(LineTimes {
        model: of(a, d),
        library: of(b, e),
        program: of(c, f),
    })
}

/// The same of the model and the library on a recording.
pub struct ReplayTimes {
    pub model: LineTime,
    pub library: LineTime,
}

/// Runs both in turn on two recordings and on the rests of them, so that what
/// the one takes more than the other is not the machine's.
pub fn time_replays(logs: &[Log; 2], runs: usize) -> [ReplayTimes; 2] {
    let parts = [&logs[0].whole, &logs[0].rest, &logs[1].whole, &logs[1].rest];
    let model = |log: &[u8]| Sort::Stamped.model(log);
    let library = |log: &[u8]| Sort::Stamped.library(log);
    for part in parts {
        assert!(model(part) == library(part), "the answers differ");
    }
    let mut models: [Vec<Duration>; 4] = Default::default();
    let mut libraries: [Vec<Duration>; 4] = Default::default();
    for _ in 0..runs {
        for (place, part) in parts.iter().enumerate() {
            models[place].push(elapsed(|| model(part)));
            libraries[place].push(elapsed(|| library(part)));
        }
    }
    let [models, libraries] = [models, libraries].map(|times| times.map(median));
    [0, 1].map(|log| {
        let of = |times: &[Duration; 4]| LineTime {
            whole: times[2 * log],
            rest: times[2 * log + 1],
            lines: logs[log].lines(),
        };
        ReplayTimes {
            model: of(&models),
            library: of(&libraries),
        }
    })
}
