//! All replays on made-up logs, many of whose lines are refused or damaged.

use plain::{obvious, REPLAYS};
use std::io::Write;

/// Splitmix64.
struct Random(u64);

impl Random {
    fn below(&mut self, n: u64) -> u64 {
        self.0 = self.0.wrapping_add(0x9E37_79B9_7F4A_7C15);
        let z = (self.0 ^ self.0 >> 30).wrapping_mul(0xBF58_476D_1CE4_E5B9);
        let z = (z ^ z >> 27).wrapping_mul(0x94D0_49BB_1331_11EB);
        (z ^ z >> 31) % n
    }

    fn pick<T: Copy>(&mut self, items: &[T]) -> T {
        items[self.below(items.len() as u64) as usize]
    }
}

/// A log under way. Few addresses and registers, so that boards are often
/// met, and numbers at the edges of the rules.
struct Log {
    random: Random,
    stamp: u32,
    bytes: Vec<u8>,
}

const CHIPS: [u64; 5] = [9635, 9634, 9531, 9551, 9636];
const ADDRESSES: [u64; 8] = [0, 1, 2, 3, 7, 96, 112, 127];
const ADDRESS_BYTES: [u64; 14] = [0, 1, 2, 3, 4, 6, 7, 14, 192, 194, 195, 224, 225, 226];
const EDGES: [u64; 8] = [0, 1, 8, 9, 16, 255, 256, 999_999_999_999_999];
const LIMIT: u64 = 1 << 48;

impl Log {
    fn line(&mut self, event: &str) {
        self.stamp = match self.random.below(20) {
            0 => self.random.below(1 << 32) as u32,
            1..=3 => self.stamp,
            _ => self.stamp.wrapping_add(self.random.below(70_000) as u32),
        };
        let start = self.bytes.len();
        writeln!(self.bytes, "at={} {event}", self.stamp).unwrap();
        if self.random.below(40) == 0 {
            self.damage(start);
        }
    }

    /// Changes, doubles or takes away a byte of the last line, or all of it.
    fn damage(&mut self, start: usize) {
        let length = (self.bytes.len() - start) as u64;
        let place = start + self.random.below(length) as usize;
        match self.random.below(5) {
            0 => self.bytes[place] = self.random.below(256) as u8,
            1 => self.bytes.insert(place, self.bytes[place]),
            2 => drop(self.bytes.remove(place)),
            3 => self.bytes.insert(place, self.random.pick(b"0 9=\n")),
            _ => self
                .bytes
                .resize(start + self.random.below(300) as usize, b'1'),
        }
    }

    fn number(&mut self, usual: u64) -> u64 {
        match self.random.below(12) {
            0 => self.random.pick(&EDGES),
            _ => self.random.below(usual),
        }
    }

    fn ticks(&mut self) -> u64 {
        let size = self.random.below(49);
        match self.random.below(30) {
            0 => LIMIT + self.random.below(3) - 1,
            _ => self.random.below(1 << size),
        }
    }

    fn put(&mut self, byte: u64) {
        self.line(&format!("ev=put byte={byte}"));
    }

    /// A message from START to STOP, or broken off.
    fn message(&mut self) {
        self.line("ev=start");
        let address = self.random.pick(&ADDRESS_BYTES);
        self.put(address);
        if address & 1 == 1 {
            for _ in 0..self.random.below(6) {
                let ack = self.number(2).max(self.random.below(2));
                self.line(&format!("ev=get ack={ack}"));
            }
        } else {
            let control = self.random.pick(&[0, 1, 2, 18, 20, 17, 21]) | self.random.below(2) << 7;
            for place in 0..self.random.below(8) {
                let byte = match place {
                    0 if address == 6 => 0xA5,
                    1 if address == 6 => 0x5A,
                    0 => control,
                    1 if control & 31 == 0 => self.random.pick(&[1, 15, 17, 31]),
                    _ => self.number(256),
                };
                self.put(byte);
            }
        }
        if self.random.below(4) != 0 {
            self.line("ev=stop");
        }
    }

    fn activity(&mut self) {
        let board = self.number(8);
        let output = self.number(17);
        let event = match self.random.below(14) {
            0..=6 => return self.message(),
            7 | 8 => format!("ev=wait dev={board} ticks={}", self.ticks()),
            9 | 10 => format!("ev=lit dev={board} out={output} ticks={}", self.ticks()),
            11 => format!("ev=pin dev={board} out={output}"),
            12 => format!("ev=oe dev={board} level={}", self.number(2)),
            _ if self.random.below(9) == 0 => format!("ev=reset dev={board}"),
            _ => format!("ev=ext dev={board} level={}", self.number(256)),
        };
        self.line(&event);
    }
}

fn log(seed: u64) -> Vec<u8> {
    let mut log = Log {
        random: Random(seed),
        stamp: 4_294_900_000,
        bytes: Vec::new(),
    };
    for _ in 0..1 + seed % 10 {
        let chip = log.random.pick(&CHIPS);
        let address = log.random.pick(&ADDRESSES) % if chip < 9600 { 9 } else { 200 };
        log.line(&format!("ev=add chip={chip} addr={address}"));
    }
    for _ in 0..200 {
        log.activity();
    }
    // The last line feed may lack.
    if seed.is_multiple_of(3) {
        log.bytes.pop();
    }
    log.bytes
}

#[test]
fn all_give_the_same() {
    let mut waited = 0;
    let mut codes = [0; 11];
    for seed in 0..2_000 {
        let log = log(seed);
        let expected = obvious::run(&log);
        let answers = String::from_utf8(expected.answers).unwrap();
        for (name, run) in &REPLAYS[1..] {
            let outcome = run(&log);
            let text = String::from_utf8(outcome.answers).unwrap();
            for (one, other) in answers.lines().zip(text.lines()) {
                assert_eq!(one, other, "{name}, seed {seed}");
            }
            assert_eq!(answers, text, "{name}, seed {seed}");
            assert_eq!(expected.totals, outcome.totals, "{name}, seed {seed}");
        }
        for line in answers.lines() {
            let code = line.split(['=', ' ']).nth(3).unwrap();
            codes[code.parse::<usize>().unwrap()] += 1;
        }
        waited += expected.totals.iter().filter(|&&total| total != 0).count();
    }
    assert!(waited > 1_000);
    // Every number that a line can have is met, but 8, which none has.
    let missing: Vec<usize> = (0..11).filter(|&code| codes[code] == 0).collect();
    assert_eq!(missing, [8], "{codes:?}");
}
