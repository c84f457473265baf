//! Made-up recordings: boards are added and set up, then there is traffic.
//! About one line in a hundred is refused.

use crate::plan::{Plan, Steps};
use crate::random::Random;
use std::fmt::Arguments;
use std::io::Write;

/// Addresses that drivers share after reset: all of them answer the first two,
/// every other one the third.
const SHARED: [u8; 3] = [0x70, 0x71, 0x72];
/// MODE1 of a driver at an even and at an odd position, which is awake.
const MODE1: [u8; 2] = [0x0D, 0x09];
const SLEEP: u8 = 0x10;
/// MODE2: dimming, blinking, inverted, open drain, and with changes at the
/// acknowledge.
const MODE2: [u8; 8] = [0x05, 0x05, 0x05, 0x25, 0x25, 0x15, 0x01, 0x0D];
/// Option 100: the pointer goes on.
const INCREMENT: u8 = 0x80;

/// A log of so many lines. The same plan and seed give the same log.
pub fn log(plan: &Plan, lines: usize, seed: u64) -> Vec<u8> {
    let mut traffic = Traffic {
        plan,
        random: Random::new(seed),
        stamp: 4_000_000_000,
        // However long the steps are, no driver comes to its limit.
        longest: (1 << 31).min((1 << 48) / lines.max(1) as u64),
        lines_left: lines,
        bytes: Vec::new(),
    };
    traffic.set_up();
    while traffic.lines_left > 0 {
        traffic.activity();
    }
    traffic.bytes
}

struct Traffic<'a> {
    plan: &'a Plan,
    random: Random,
    stamp: u32,
    longest: u64,
    lines_left: usize,
    bytes: Vec<u8>,
}

fn is_driver(chip: u64) -> bool {
    chip > 9600
}

fn outputs(chip: u64) -> u8 {
    match chip {
        9635 => 16,
        _ => 8,
    }
}

/// GRPPWM; GRPFREQ and LEDOUT follow it.
fn grppwm(chip: u64) -> u8 {
    2 + outputs(chip)
}

impl Traffic<'_> {
    // ---- lines

    /// A line of the traffic, after such questions as come between.
    fn line(&mut self, event: Arguments) {
        while self.random.chance(self.plan.questions) {
            self.question();
            self.refused_line_at_times();
        }
        self.write(event);
        self.refused_line_at_times();
    }

    fn write(&mut self, event: Arguments) {
        if self.lines_left == 0 {
            return;
        }
        self.lines_left -= 1;
        let is_long = match self.plan.steps {
            Steps::Short => false,
            Steps::Long => true,
            Steps::Mixed => self.random.chance(50),
        };
        let step = self
            .random
            .below(if is_long { self.longest } else { 1_000 });
        self.stamp = self.stamp.wrapping_add(step as u32);
        writeln!(self.bytes, "at={} {event}", self.stamp).expect("a vector takes any bytes");
    }

    fn question(&mut self) {
        let board = self.any_board();
        let output = self.random.below(outputs(self.plan.chips[board]).into());
        if self.random.chance(50) {
            self.write(format_args!("ev=pin dev={board} out={output}"));
        } else {
            let window = self.random.pick(&[256, 1_000, 1_000_000, 10_000_000_000]);
            let ticks = self.random.below(window);
            self.write(format_args!(
                "ev=lit dev={board} out={output} ticks={ticks}"
            ));
        }
    }

    /// Once in a hundred times a line that is refused whatever the bus is
    /// like.
    fn refused_line_at_times(&mut self) {
        if !self.random.chance(1) {
            return;
        }
        let line = self.random.pick(&[
            "ev=put byte=256",
            "ev=get ack=2",
            "ev=pin dev=8 out=0",
            "ev=lit dev=0 out=16 ticks=256",
            "ev=wait dev=0 ticks=999999999999999",
            "ev=oe dev=0 level=2",
            "ev=add chip=9685 addr=64",
            "ev=stop now",
            "ev=put byte=0x2A",
        ]);
        self.write(format_args!("{line}"));
    }

    // ---- messages

    fn put(&mut self, byte: u8) {
        self.line(format_args!("ev=put byte={byte}"));
    }

    fn write_message(&mut self, address: u8, bytes: &[u8]) {
        self.line(format_args!("ev=start"));
        self.put(2 * address);
        bytes.iter().for_each(|&byte| self.put(byte));
        self.line(format_args!("ev=stop"));
    }

    fn read_message(&mut self, address: u8, control: u8, gets: u64) {
        self.line(format_args!("ev=start"));
        self.put(2 * address);
        self.put(control);
        self.line(format_args!("ev=start"));
        self.put(2 * address + 1);
        for get in 1..=gets {
            let ack = u8::from(get < gets);
            self.line(format_args!("ev=get ack={ack}"));
        }
        self.line(format_args!("ev=stop"));
    }

    // ---- boards

    fn any_board(&mut self) -> usize {
        self.random.below(self.plan.chips.len() as u64) as usize
    }

    /// The hardware address that a board is added with.
    fn hardware(&self, board: usize) -> u8 {
        match is_driver(self.plan.chips[board]) {
            true => 16 + board as u8,
            false => board as u8,
        }
    }

    /// The 7-bit address that a board answers.
    fn address(&self, board: usize) -> u8 {
        match is_driver(self.plan.chips[board]) {
            true => self.hardware(board),
            false => 0x60 + self.hardware(board),
        }
    }

    fn set_up(&mut self) {
        for (board, chip) in self.plan.chips.iter().enumerate() {
            let address = self.hardware(board);
            self.write(format_args!("ev=add chip={chip} addr={address}"));
        }
        for board in 0..self.plan.chips.len() {
            self.set_up_board(board);
        }
    }

    /// Writes all registers of a board; a driver is woken by the same message.
    fn set_up_board(&mut self, board: usize) {
        let chip = self.plan.chips[board];
        let mut bytes = Vec::new();
        if is_driver(chip) {
            let sleep = if self.plan.awake { 0 } else { SLEEP };
            bytes.extend([
                INCREMENT,
                MODE1[board % 2] | sleep,
                self.random.pick(&MODE2),
            ]);
            bytes.extend((0..=outputs(chip)).map(|_| self.random.byte()));
            bytes.push(self.random.below(24) as u8);
            bytes.extend((0..outputs(chip) / 4).map(|_| self.modes()));
        } else {
            bytes.push(0x11);
            bytes.extend((0..4).map(|_| self.random.byte()));
            bytes.extend([self.random.byte(), self.random.byte()]);
        }
        self.write_message(self.address(board), &bytes);
    }

    /// A LEDOUT byte: of 20 outputs two are off, three on, nine have their own
    /// brightness and six follow the group too.
    fn modes(&mut self) -> u8 {
        (0..4).fold(0, |byte, _| {
            let mode = match self.random.below(20) {
                _ if self.plan.grouped => 3,
                0..=1 => 0,
                2..=4 => 1,
                5..=13 => 2,
                _ => 3,
            };
            byte << 2 | mode
        })
    }

    // ---- traffic

    fn activity(&mut self) {
        let board = self.any_board();
        if self.random.below(400) == 0 {
            self.line(format_args!("ev=reset dev={board}"));
            self.set_up_board(board);
        } else if is_driver(self.plan.chips[board]) {
            self.driver_activity(board);
        } else {
            self.blinker_activity(board);
        }
    }

    fn driver_activity(&mut self, board: usize) {
        let chip = self.plan.chips[board];
        match self.random.below(100) {
            0..=64 => {
                let bytes = self.driver_bytes(chip);
                self.write_message(self.address(board), &bytes);
            }
            65..=79 => {
                let shared = self.random.pick(&SHARED);
                let bytes = self.driver_bytes(chip);
                self.write_message(shared, &bytes);
            }
            80..=93 => {
                let control = INCREMENT | self.random.below(12) as u8;
                let gets = 1 + self.random.below(6);
                self.read_message(self.address(board), control, gets);
            }
            94..=96 => {
                let ticks = self.random.below(1_000);
                self.line(format_args!("ev=wait dev={board} ticks={ticks}"));
            }
            _ => {
                let level = self.random.below(2);
                self.line(format_args!("ev=oe dev={board} level={level}"));
            }
        }
    }

    /// A control byte and what is written from its register on.
    fn driver_bytes(&mut self, chip: u64) -> Vec<u8> {
        let lamp = self.random.below((outputs(chip) / 4).into()) as u8;
        let output = self.random.below(outputs(chip).into()) as u8;
        let [one, two, three, four] = [0; 4].map(|_| self.random.byte());
        match self.random.below(100) {
            0..=29 => vec![2 + output, one],
            30..=59 => vec![INCREMENT | (2 + 4 * lamp), one, two, three, four],
            60..=79 => vec![grppwm(chip) + 2 + lamp, self.modes()],
            80..=89 => vec![grppwm(chip), one],
            90..=93 => vec![grppwm(chip) + 1, one % 24],
            _ => vec![1, self.random.pick(&MODE2)],
        }
    }

    fn blinker_activity(&mut self, board: usize) {
        let address = self.address(board);
        let [one, two] = [0; 2].map(|_| self.random.byte());
        match self.random.below(100) {
            0..=69 => {
                let window = self.random.pick(&[100, 40_000, 1_000_000_000]);
                let steps = self.random.below(window);
                self.line(format_args!("ev=wait dev={board} ticks={steps}"));
            }
            70..=79 => self.write_message(address, &[0x11, one, two]),
            80..=84 => self.write_message(address, &[0x15, one, two]),
            85..=89 => self.write_message(address, &[4, one]),
            90..=97 => {
                let gets = 1 + self.random.below(4);
                self.read_message(address, 0x10, gets);
            }
            _ => self.line(format_args!("ev=ext dev={board} level={one}")),
        }
    }
}
