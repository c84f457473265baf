//! Tables to be pasted into a document.

use crate::{Result, WHO};
use std::time::Duration;

/// The milliseconds of each of the four, by run.
pub struct Times([Vec<f64>; 4]);

impl Times {
    /// The four in turn, each first in every fourth turn, so that a slow moment,
    /// and what the one before leaves behind, meets all alike.
    pub fn in_turns(runs: usize, mut time: impl FnMut(usize) -> Result<Duration>) -> Result<Times> {
        let mut times: [Vec<f64>; 4] = Default::default();
        for turn in 0..4 * runs {
            let who = (turn + turn / 4) % 4;
            times[who].push(1_000.0 * time(who)?.as_secs_f64());
        }
        Ok(Times(times))
    }

    /// The middle ones, or the larger of the two in the middle.
    fn medians(&self) -> [f64; 4] {
        self.0.each_ref().map(|times| {
            let mut sorted = times.clone();
            sorted.sort_by(f64::total_cmp);
            sorted[sorted.len() / 2]
        })
    }

    /// The lowest and the highest twin/obvious of a run.
    fn spread(&self) -> String {
        let [twin, obvious, ..] = &self.0;
        let ratios = twin
            .iter()
            .zip(obvious)
            .map(|(twin, obvious)| twin / obvious);
        let low = ratios.clone().fold(f64::INFINITY, f64::min);
        let high = ratios.fold(0.0, f64::max);
        format!("{low:.2} to {high:.2}")
    }
}

/// A table under way: the medians of its rows by name.
pub struct Table(Vec<(String, [f64; 4])>);

impl Table {
    /// Prints the head.
    pub fn begin() -> Table {
        let times = WHO.map(|who| format!("{who} ms")).join(" | ");
        let ratios = "twin/obvious | twin/prompt | twin/best | twin/obvious, lowest to highest";
        println!("| log | lines accepted | {times} | {ratios} |");
        println!("|---{}", "|---:".repeat(9) + "|");
        Table(Vec::new())
    }

    pub fn row(&mut self, name: &str, accepted: usize, lines: usize, times: &Times) {
        let share = 100.0 * accepted as f64 / lines as f64;
        let medians = times.medians();
        let milliseconds = medians.map(|time| format!("{time:.2}")).join(" | ");
        let [twin, others @ ..] = medians;
        let ratios = others
            .map(|other| format!("{:.2}", twin / other))
            .join(" | ");
        let spread = times.spread();
        println!("| {name} | {accepted} ({share:.1}%) | {milliseconds} | {ratios} | {spread} |");
        self.0.push((name.to_string(), medians));
    }

    /// Prints the line under it.
    pub fn end(&self) {
        print_worst(&self.0);
    }
}

/// Says the largest twin/obvious and twin/prompt of named times of the four.
pub fn print_worst(rows: &[(impl AsRef<str>, [f64; 4])]) {
    let worst = [1, 2].map(|other| {
        let ratios = rows
            .iter()
            .map(|(name, times)| (times[0] / times[other], name.as_ref()));
        let (ratio, name) =
            ratios.fold((0.0, ""), |one, two| if two.0 > one.0 { two } else { one });
        format!("twin/{} {ratio:.2} ({name})", WHO[other])
    });
    println!("\nWorst: {}.", worst.join(", "));
}
