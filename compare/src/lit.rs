//! Logs that show how long lit counts take, in each mode of each kind of chip.

use crate::generate::Random;
use crate::model::{Event, MAX_DEVICES};
use crate::timing::{lines_of, write_message, Log};
use std::fmt;

/// Questions in a log.
pub const COUNTS: usize = 1000;

/// The windows that are asked for.
pub const WINDOWS: [u64; 2] = [10, 1 << 47];

/// Devices stand below twice this count when they are asked, so that every
/// window ends by the limit.
const LATEST: u64 = 1 << 46;

/// A wait between two rounds of questions; there are at most 16 rounds.
const LONGEST_WAIT: u64 = LATEST / 16;

/// What all outputs of a device do.
#[derive(Clone, Copy, Debug, PartialEq, Eq)]
pub enum Mode {
    Off,
    On,
    Individual,
    Dimming,
    Blinking,
    AsleepLit,
    AsleepUnlit,
    Blink0,
    Blink1,
}

impl fmt::Display for Mode {
    fn fmt(&self, f: &mut fmt::Formatter<'_>) -> fmt::Result {
        f.write_str(match self {
            Mode::Off => "off",
            Mode::On => "on",
            Mode::Individual => "individual",
            Mode::Dimming => "dimming",
            Mode::Blinking => "blinking",
            Mode::AsleepLit => "asleep, lit",
            Mode::AsleepUnlit => "asleep, unlit",
            Mode::Blink0 => "BLINK0",
            Mode::Blink1 => "BLINK1",
        })
    }
}

const DRIVER_MODES: [Mode; 7] = [
    Mode::Off,
    Mode::On,
    Mode::Individual,
    Mode::Dimming,
    Mode::Blinking,
    Mode::AsleepLit,
    Mode::AsleepUnlit,
];

const BLINKER_MODES: [Mode; 4] = [Mode::Off, Mode::On, Mode::Blink0, Mode::Blink1];

/// Each kind with each of its modes.
pub fn settings() -> Vec<(u64, Mode)> {
    let with_modes = |chip, modes: &'static [Mode]| modes.iter().map(move |&mode| (chip, mode));
    with_modes(9635, &DRIVER_MODES)
        .chain(with_modes(9634, &DRIVER_MODES))
        .chain(with_modes(9531, &BLINKER_MODES))
        .chain(with_modes(9551, &BLINKER_MODES))
        .collect()
}

/// Eight devices of a kind, each with registers and a start of its own, all
/// in one mode; then rounds of questions about every output, which are timed,
/// with waits between the rounds.
pub fn log(chip: u64, mode: Mode, window: u64) -> Log {
    let mut random = Random::new(chip);
    let mut events = Vec::new();
    for device in 0..MAX_DEVICES as u64 {
        match chip {
            9635 | 9634 => set_driver(&mut events, &mut random, chip, device, mode),
            _ => set_blinker(&mut events, &mut random, chip, device, mode),
        }
    }
    ask_in_rounds(&mut events, &mut random, chip, window);
    let is_question = |event: &Event| matches!(event, Event::Lit { .. });
    Log {
        rest: lines_of(events.iter().filter(|event| !is_question(event))),
        whole: lines_of(&events),
    }
}

/// A brightness that is neither 0 nor 256.
fn brightness(random: &mut Random) -> u8 {
    1 + random.below(255) as u8
}

fn outputs_of(chip: u64) -> u64 {
    if chip == 9635 {
        16
    } else {
        8
    }
}

fn is_asleep(mode: Mode) -> bool {
    matches!(mode, Mode::AsleepLit | Mode::AsleepUnlit)
}

/// The control byte and all registers from MODE1 to LEDOUT, and GRPFREQ among
/// them by itself.
fn driver_bytes(random: &mut Random, outputs: usize, mode: Mode) -> (Vec<u8>, u8) {
    let blinking = mode == Mode::Blinking || is_asleep(mode);
    let ledout = match mode {
        Mode::Off => 0x00,
        Mode::On => 0x55,
        Mode::Individual => 0xAA,
        _ => 0xFF,
    };
    let mut bytes = vec![0x80, 0x00, if blinking { 0x25 } else { 0x05 }];
    bytes.extend((0..outputs).map(|_| brightness(random)));
    let grpfreq = random.below(256) as u8;
    bytes.extend([brightness(random), grpfreq]);
    bytes.extend(vec![ledout; outputs / 4]);
    (bytes, grpfreq)
}

/// A driver's count. One that is to be put to sleep stands at the first tick
/// of a blink period, which is lit, or at the last, which is not.
fn driver_start(random: &mut Random, mode: Mode, grpfreq: u8) -> u64 {
    let period = (u64::from(grpfreq) + 1) << 20;
    let periods = random.below(LATEST / period) * period;
    match mode {
        Mode::AsleepLit => periods,
        Mode::AsleepUnlit => periods + period - 1,
        _ => random.below(LATEST),
    }
}

fn set_driver(events: &mut Vec<Event>, random: &mut Random, chip: u64, device: u64, mode: Mode) {
    let address = 16 + device;
    events.push(Event::Add { chip, address });
    let (bytes, grpfreq) = driver_bytes(random, outputs_of(chip) as usize, mode);
    write_message(events, address, &bytes);
    let ticks = driver_start(random, mode, grpfreq);
    events.push(Event::Wait { device, ticks });
    if is_asleep(mode) {
        write_message(events, address, &[0x00, 0x10]);
    }
}

/// All registers of a blinker, and the start.
fn set_blinker(events: &mut Vec<Event>, random: &mut Random, chip: u64, device: u64, mode: Mode) {
    events.push(Event::Add {
        chip,
        address: device,
    });
    let ls = match (chip, mode) {
        (9531, Mode::Off) | (9551, Mode::On) => 0x00,
        (_, Mode::Off | Mode::On) => 0x55,
        (_, Mode::Blink0) => 0xAA,
        _ => 0xFF,
    };
    let mut bytes = vec![0x11];
    for _ in 0..2 {
        bytes.extend([random.below(256) as u8, brightness(random)]);
    }
    bytes.extend([ls; 2]);
    write_message(events, 0x60 + device, &bytes);
    let ticks = random.below(LATEST);
    events.push(Event::Wait { device, ticks });
}

/// Questions about every output of every device, again and again, the devices
/// moved on after each round.
fn ask_in_rounds(events: &mut Vec<Event>, random: &mut Random, chip: u64, window: u64) {
    let devices = MAX_DEVICES as u64;
    let outputs = outputs_of(chip);
    for question in 0..COUNTS as u64 {
        if question > 0 && question % (devices * outputs) == 0 {
            for device in 0..devices {
                let ticks = random.below(LONGEST_WAIT);
                events.push(Event::Wait { device, ticks });
            }
        }
        events.push(Event::Lit {
            device: question / outputs % devices,
            output: question % outputs,
            ticks: window,
        });
    }
}

#[cfg(test)]
mod tests {
    use super::*;
    use crate::text;

    /// The value of each answer, all of which must be accepted.
    fn values(log: &[u8]) -> Vec<u64> {
        let answers = text::run(log);
        text::lines(&answers)
            .map(|line| {
                let line = std::str::from_utf8(line).unwrap();
                let (_, value) = line.split_once(" code=0 value=").expect(line);
                value.parse().unwrap()
            })
            .collect()
    }

    /// The values of the questions, which follow no other line than waits.
    fn counts(log: &Log) -> Vec<u64> {
        let values = values(&log.whole);
        text::lines(&log.whole)
            .zip(values)
            .filter(|(line, _)| line.starts_with(b"ev=lit "))
            .map(|(_, value)| value)
            .collect()
    }

    #[test]
    fn every_question_is_accepted_and_its_lamp_does_as_named() {
        for window in WINDOWS {
            for (chip, mode) in settings() {
                let counts = counts(&log(chip, mode, window));
                assert_eq!(counts.len(), COUNTS);
                let all = |value| counts.iter().all(|&count| count == value);
                match mode {
                    Mode::Off | Mode::AsleepUnlit => assert!(all(0), "{chip} {mode:?}"),
                    Mode::On | Mode::AsleepLit => assert!(all(window), "{chip} {mode:?}"),
                    _ => assert!(window == 10 || counts.iter().all(|&n| 0 < n && n < window)),
                }
            }
        }
    }

    #[test]
    fn the_rest_has_no_question() {
        let log = log(9634, Mode::Dimming, 10);
        assert_eq!(log.lines(), COUNTS);
        assert!(text::lines(&log.rest).all(|line| !line.starts_with(b"ev=lit ")));
    }
}
