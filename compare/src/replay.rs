//! Replay of a recorded evening: a log in which "`at=` and a driver-tick
//! stamp" stand before each line.

use crate::model::{Bus, Event, BAD_LINE};
use crate::text;
use crate::totals::{self, Row};

/// The bus, and the stamp of the last accepted line.
#[derive(Clone, Debug, Default)]
pub struct Replay {
    pub bus: Bus,
    pub stamp: Option<u32>,
}

/// Replays all lines of the input from an empty bus and gives the answer
/// lines.
pub fn run(input: &[u8]) -> Vec<u8> {
    let mut replay = Replay::default();
    text::answers(input, |line| replay.answer(line))
}

/// Replays all lines of the input from an empty bus and gives the totals at
/// its end.
pub fn totals(input: &[u8]) -> Row {
    let mut replay = Replay::default();
    for line in text::lines(input) {
        replay.answer(line);
    }
    totals::row(&replay.bus)
}

/// "Elapsed time is later minus earlier around the roll-over."
pub fn elapsed(later: u32, earlier: u32) -> u32 {
    later.wrapping_sub(earlier)
}

/// Reads a stamp, one space and a line of a listed shape. A line's greatest
/// length counts without stamp and space.
pub fn parse(line: &[u8]) -> Option<(u32, Event)> {
    let line = line.strip_prefix(b"at=")?;
    let space = line.iter().position(|&byte| byte == b' ')?;
    let stamp = text::decimal(&line[..space])?;
    let event = text::parse(&line[space + 1..])?;
    Some((u32::try_from(stamp).ok()?, event))
}

impl Replay {
    /// The answer (code, value) to one line.
    pub fn answer(&mut self, line: &[u8]) -> (u64, u64) {
        match parse(line) {
            Some((stamp, event)) => self.step(stamp, event),
            None => (BAD_LINE, 0),
        }
    }

    /// "A refused line does nothing at all, its time included, and the
    /// earlier stamp stays."
    pub fn step(&mut self, stamp: u32, event: Event) -> (u64, u64) {
        let answer = self.bus.apply_after(self.elapsed(stamp).into(), event);
        if answer.0 == 0 {
            self.stamp = Some(stamp);
        }
        answer
    }

    /// "Until a line is accepted, elapsed is 0."
    pub fn elapsed(&self, stamp: u32) -> u32 {
        self.stamp.map_or(0, |earlier| elapsed(stamp, earlier))
    }
}

#[cfg(test)]
mod tests {
    use super::*;
    use crate::check::damage_share;
    use crate::generate;

    /// The state as text, for comparison.
    fn state(replay: &Replay) -> String {
        format!("{replay:?}")
    }

    /// A wait line for every driver on the bus, then the event, all by hand.
    fn apply_by_hand(bus: &mut Bus, ticks: u64, event: Event) -> (u64, u64) {
        for position in 0..bus.devices.len() {
            if bus.devices[position].chip.is_driver() {
                let device = position as u64;
                assert_eq!(bus.apply(Event::Wait { device, ticks }), (0, 0));
            }
        }
        bus.apply(event)
    }

    /// "Replay must give the same codes and values as feeding the accepted
    /// lines and their waits by hand."
    #[test]
    fn accepted_lines_are_as_by_hand() {
        for seed in 1..60 {
            let mut replay = Replay::default();
            let mut bus = Bus::new();
            let log = generate::stamped_log(seed, 1000, damage_share(seed));
            for line in text::lines(&log) {
                let before = replay.clone();
                let answer = replay.answer(line);
                if answer.0 == 0 {
                    let (stamp, event) = parse(line).unwrap();
                    let ticks = before.elapsed(stamp).into();
                    assert_eq!(apply_by_hand(&mut bus, ticks, event), answer);
                }
                assert_eq!(format!("{bus:?}"), format!("{:?}", replay.bus));
            }
        }
    }

    /// Every number that holds is among these: the time's, and the event's own
    /// on the bus before the time, or after it if it fits.
    fn numbers_that_hold(before: &Replay, stamp: u32, event: Event) -> Vec<u64> {
        let ticks = before.elapsed(stamp).into();
        let mut bus = before.bus.clone();
        let mut numbers = Vec::new();
        if bus.time_would_pass_limit(ticks) {
            numbers.push(6);
            numbers.push(bus.apply(event).0);
        } else {
            numbers.push(apply_by_hand(&mut bus, ticks, event).0);
        }
        numbers.retain(|&number| number != 0);
        numbers
    }

    #[test]
    fn a_refused_line_has_the_least_number_and_does_nothing() {
        for seed in 1..60 {
            let mut replay = Replay::default();
            let log = generate::stamped_log(seed, 1000, damage_share(seed));
            for line in text::lines(&log) {
                let before = replay.clone();
                let (code, value) = replay.answer(line);
                let least = match parse(line) {
                    Some((stamp, event)) => numbers_that_hold(&before, stamp, event),
                    None => vec![BAD_LINE],
                };
                assert_eq!(code, least.into_iter().min().unwrap_or(0));
                if code != 0 {
                    assert_eq!(value, 0);
                    assert_eq!(state(&replay), state(&before));
                }
            }
        }
    }

    #[test]
    fn elapsed_goes_around_the_roll_over() {
        assert_eq!(elapsed(7, 7), 0);
        assert_eq!(elapsed(7, 3), 4);
        assert_eq!(elapsed(3, u32::MAX), 4);
        assert_eq!(elapsed(0, u32::MAX), 1);
        assert_eq!(elapsed(u32::MAX, 0), u32::MAX);
        assert_eq!(elapsed(6, 7), u32::MAX);
    }

    #[test]
    fn stamps_are_decimals_below_a_round() {
        let read = |line: &str| parse(line.as_bytes()).map(|(stamp, _)| stamp);
        assert_eq!(read("at=0 ev=stop"), Some(0));
        assert_eq!(read("at=4294967295 ev=stop"), Some(u32::MAX));
        for stamp in ["", "00", "01", "4294967296", "+1", "-1", "1x", "1\t"] {
            assert_eq!(read(&format!("at={stamp} ev=stop")), None, "{stamp:?}");
        }
    }

    #[test]
    fn other_shapes_are_refused() {
        let wrong = [
            "",
            "at=",
            "at=1",
            "at=1 ",
            "ev=stop",
            "at=1ev=stop",
            "at=1  ev=stop",
            "at=1\tev=stop",
            " at=1 ev=stop",
            "at=1 at=1 ev=stop",
            "ev=stop at=1",
            "AT=1 ev=stop",
            "at=1 ev=stop ",
            "at=1 ev=stop\r",
        ];
        for line in wrong {
            assert_eq!(parse(line.as_bytes()), None, "{line:?}");
        }
    }

    #[test]
    fn the_length_of_a_line_counts_without_its_stamp() {
        let number = 999_999_999_999_999;
        let event = Event::Lit {
            device: number,
            output: number,
            ticks: number,
        };
        let line = format!("at={} {}", u32::MAX, text::format_event(event));
        assert!(line.len() > text::MAX_LINE);
        assert_eq!(parse(line.as_bytes()), Some((u32::MAX, event)));
    }
}
