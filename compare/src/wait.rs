//! Logs that show how long a wait takes, which sums up what every output did,
//! and how long a put, on a bus with one PCA9635 and with eight.
//!
//! In a recording the time before a line goes to every board: what eight take
//! more than one is the waits of seven, without anything that comes with a
//! line.

use crate::generate::Random;
use crate::model::Event;
use crate::text;
use crate::timing::{lines_of, write_message, Log};
use std::fmt;

/// Lines that are timed in a log.
pub const LINES: usize = 20_000;

/// How many boards stand on the bus.
pub const BOARDS: [u64; 2] = [1, 8];

/// Waits are shorter than this, so that no count comes near its limit.
const LONGEST_WAIT: u64 = 1_000_000;

/// What all outputs of the boards do, each with a brightness of its own.
#[derive(Clone, Copy, Debug, PartialEq, Eq)]
pub enum Setting {
    Individual,
    Dimming,
    Blinking,
    /// In the middle of a period, so that some are lit and some are not.
    Asleep,
}

/// What is timed.
#[derive(Clone, Copy, Debug, PartialEq, Eq)]
pub enum Subject {
    /// Waits of one board.
    Wait(Setting),
    /// Data bytes to one board, all in one message.
    Put,
}

pub const SETTINGS: [Setting; 4] = [
    Setting::Individual,
    Setting::Dimming,
    Setting::Blinking,
    Setting::Asleep,
];

pub const SUBJECTS: [Subject; 5] = [
    Subject::Wait(Setting::Individual),
    Subject::Wait(Setting::Dimming),
    Subject::Wait(Setting::Blinking),
    Subject::Wait(Setting::Asleep),
    Subject::Put,
];

impl fmt::Display for Setting {
    fn fmt(&self, f: &mut fmt::Formatter<'_>) -> fmt::Result {
        f.write_str(match self {
            Setting::Individual => "individual",
            Setting::Dimming => "dimming",
            Setting::Blinking => "blinking",
            Setting::Asleep => "asleep",
        })
    }
}

impl fmt::Display for Subject {
    fn fmt(&self, f: &mut fmt::Formatter<'_>) -> fmt::Result {
        match self {
            Subject::Wait(setting) => write!(f, "wait, {setting}"),
            Subject::Put => f.write_str("put"),
        }
    }
}

/// So many boards, of which the last is the one that waits or is written to.
pub fn log(subject: Subject, boards: u64) -> Log {
    let mut random = Random::new(boards);
    let mut before = Vec::new();
    for device in 0..boards {
        set_board(&mut before, device, setting_of(subject));
    }
    let last = boards - 1;
    let mut timed = Vec::new();
    let mut after = Vec::new();
    match subject {
        Subject::Wait(_) => timed.extend((0..LINES).map(|_| any_wait(&mut random, last))),
        Subject::Put => {
            begin_write(&mut before, last);
            timed.extend((0..LINES).map(|_| any_put(&mut random)));
            after.push(Event::Stop);
        }
    }
    Log {
        rest: lines_of(before.iter().chain(&after)),
        whole: lines_of(before.iter().chain(&timed).chain(&after)),
    }
}

/// A recording whose timed lines ask the first board for a pin, some time
/// after each other; the lines before them stand at tick 0.
pub fn recording(setting: Setting, boards: u64) -> Log {
    let mut random = Random::new(boards);
    let mut before = Vec::new();
    for device in 0..boards {
        set_board(&mut before, device, setting);
    }
    let rest: String = before.iter().map(|&event| stamped(0, event)).collect();
    let mut whole = rest.clone();
    let mut at = 0;
    for _ in 0..LINES {
        at += random.below(LONGEST_WAIT);
        let pin = Event::Pin {
            device: 0,
            output: 0,
        };
        whole += &stamped(at, pin);
    }
    Log {
        whole: whole.into_bytes(),
        rest: rest.into_bytes(),
    }
}

/// The line of an event, so many ticks after the recorder's start.
fn stamped(ticks: u64, event: Event) -> String {
    let at = ticks % (1 << 32);
    format!("at={at} {}\n", text::format_event(event))
}

fn setting_of(subject: Subject) -> Setting {
    match subject {
        Subject::Wait(setting) => setting,
        Subject::Put => Setting::Individual,
    }
}

fn address_of(device: u64) -> u64 {
    16 + device
}

/// The control byte and all registers from MODE1 to LEDOUT.
fn registers(setting: Setting) -> Vec<u8> {
    let (mode2, ledout) = match setting {
        Setting::Individual | Setting::Asleep => (0x05, 0xAA),
        Setting::Dimming => (0x05, 0xFF),
        Setting::Blinking => (0x25, 0xFF),
    };
    let mut bytes = vec![0x80, 0x00, mode2];
    bytes.extend((0..16).map(|output| 8 + 15 * output));
    bytes.extend([100, 3]);
    bytes.extend([ledout; 4]);
    bytes
}

fn set_board(events: &mut Vec<Event>, device: u64, setting: Setting) {
    let address = address_of(device);
    events.push(Event::Add {
        chip: 9635,
        address,
    });
    write_message(events, address, &registers(setting));
    if setting == Setting::Asleep {
        events.push(Event::Wait { device, ticks: 128 });
        write_message(events, address, &[0x00, 0x10]);
    }
}

fn any_wait(random: &mut Random, device: u64) -> Event {
    let ticks = random.below(LONGEST_WAIT);
    Event::Wait { device, ticks }
}

/// A write to PWM0 that does not end: option 000 keeps the pointer.
fn begin_write(events: &mut Vec<Event>, device: u64) {
    events.push(Event::Start);
    for byte in [2 * address_of(device), 0x02] {
        events.push(Event::Put { byte });
    }
}

fn any_put(random: &mut Random) -> Event {
    let byte = random.below(256);
    Event::Put { byte }
}

#[cfg(test)]
mod tests {
    use super::*;
    use crate::model::{Bus, Device};
    use crate::replay::Replay;

    /// The bus at the end of a log, all lines of which must be accepted.
    fn bus_after(log: &[u8]) -> Bus {
        let mut bus = Bus::new();
        for line in text::lines(log) {
            assert_eq!(text::answer(&mut bus, line).0, 0);
        }
        bus
    }

    #[test]
    fn every_line_is_accepted() {
        for subject in SUBJECTS {
            for boards in BOARDS {
                let log = log(subject, boards);
                assert_eq!(log.lines(), LINES);
                for part in [&log.whole, &log.rest] {
                    assert_eq!(bus_after(part).devices.len() as u64, boards);
                }
            }
        }
    }

    /// Every line of a recording is accepted, and every board waits alike.
    #[test]
    fn every_board_waits_in_a_recording() {
        for setting in SETTINGS {
            for boards in BOARDS {
                let log = recording(setting, boards);
                assert_eq!(log.lines(), LINES);
                let mut replay = Replay::default();
                for line in text::lines(&log.whole) {
                    assert_eq!(replay.answer(line).0, 0);
                }
                let waited = |device: &Device| device.totals[15].waited();
                let first = waited(&replay.bus.devices[0]);
                assert!(first > LINES as u64);
                assert_eq!(replay.bus.devices.len() as u64, boards);
                if setting != Setting::Asleep {
                    assert!(replay
                        .bus
                        .devices
                        .iter()
                        .all(|device| waited(device) == first));
                }
            }
        }
    }

    /// Each output of the last board burns longer than the one before it;
    /// asleep, as many are lit as have a brightness above 128.
    #[test]
    fn the_last_board_does_as_named() {
        for boards in BOARDS {
            for subject in SUBJECTS {
                let bus = bus_after(&log(subject, boards).whole);
                let totals = bus.devices.last().unwrap().totals;
                let lit = totals.map(|totals| totals.lit);
                match subject {
                    Subject::Put => assert_eq!(lit, [0; 16]),
                    Subject::Wait(Setting::Asleep) => {
                        let all = totals[0].waited();
                        assert_eq!(lit.iter().filter(|&&lit| lit == all).count(), 7);
                    }
                    _ => assert!(lit.windows(2).all(|pair| pair[0] < pair[1])),
                }
            }
        }
    }
}
