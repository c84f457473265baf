//! Worked examples of the data sheets and of docs/RULES.md on lamps and pins: 000 is the PCA9635,
//! 003 its output table, 004 the PCA9634, 001 the PCA9531, 002 the PCA9551. A pin is 0 for VSS, 1
//! for VDD, 2 for high-Z.

mod log;

use log::Log;

/// 001, section 8.2, table 10: LED0 to LED3 on, LED4 and LED5 blink at 1 Hz for half of the time,
/// LED6 and LED7 dimmed to a quarter. A second has 38,912 steps, the shortest blink 256.
fn programming_example() -> Log {
    Log::with(9531, 0).write(96, &[0x11, 0x97, 0x80, 0x00, 0x40, 0x55, 0xfa])
}

const SECOND: u64 = 38_912;
const HALF: u64 = SECOND / 2;

#[test]
fn programming_example_is_acknowledged() {
    assert_eq!(programming_example().last("put", 8), [1; 8]);
}

#[test]
fn programming_example_lit() {
    // from a step on, in so many steps: each of LED0 to LED3, LED4 and LED5, LED6 and LED7
    let rows = [
        (0, SECOND, [38_912, 19_456, 9_728]),
        (0, HALF, [19_456, 19_456, 4_864]),
        (HALF, HALF, [19_456, 0, 4_864]),
        (0, 256, [256, 256, 64]),
    ];
    for (from, steps, [on, blink, dim]) in rows {
        let log = programming_example().wait(0, from);
        let log = (0..8).fold(log, |log, out| log.lit(0, out, steps));
        let expected = [on, on, on, on, blink, blink, dim, dim];
        assert_eq!(log.last("lit", 8), expected, "{steps} from {from}");
    }
}

#[test]
fn programming_example_pins() {
    let rows = [
        (0, [0, 0, 0, 0, 0, 0, 0, 0]),
        (63, [0, 0, 0, 0, 0, 0, 0, 0]),
        (64, [0, 0, 0, 0, 0, 0, 2, 2]),
        (19_455, [0, 0, 0, 0, 0, 0, 2, 2]),
        (19_456, [0, 0, 0, 0, 2, 2, 0, 0]),
        (38_911, [0, 0, 0, 0, 2, 2, 2, 2]),
        (38_912, [0, 0, 0, 0, 0, 0, 0, 0]),
    ];
    for (step, expected) in rows {
        let log = programming_example().wait(0, step);
        let log = (0..8).fold(log, |log, out| log.pin(0, out));
        assert_eq!(log.last("pin", 8), expected, "step {step}");
    }
}

#[test]
fn programming_example_registers() {
    let rows = [
        (0, [0x00, 0x97, 0x80, 0x00, 0x40, 0x55, 0xfa]),
        (64, [0xc0, 0x97, 0x80, 0x00, 0x40, 0x55, 0xfa]),
        (19_456, [0x30, 0x97, 0x80, 0x00, 0x40, 0x55, 0xfa]),
        (38_911, [0xf0, 0x97, 0x80, 0x00, 0x40, 0x55, 0xfa]),
    ];
    for (step, expected) in rows {
        let log = programming_example().wait(0, step).read(96, 0x10, 7);
        assert_eq!(log.bytes(7), expected, "step {step}");
    }
}

/// Both blinks start together after 256 times the least common multiple of 152 and 1 (RULES,
/// Lamps): at every step, LED4 shows BLINK0 and LED6 BLINK1, and a blink starts where its pin goes
/// low.
#[test]
fn programming_example_blinks_meet() {
    let steps = 2 * SECOND as usize;
    let ask = |log: Log, _| log.wait(0, 1).pin(0, 4).pin(0, 6);
    let log = (0..steps).fold(programming_example().pin(0, 4).pin(0, 6), ask);
    let pins = log.last("pin", 2 * (steps + 1));
    let both_start = |step: &usize| pins[2 * step - 2..2 * step + 2] == [2, 2, 0, 0];
    let meetings: Vec<usize> = (1..=steps).filter(both_start).collect();
    assert_eq!(meetings, [38_912, 77_824]);
}

/// A driver at address 16: its last output, which is the highest of its LEDOUT register, and the
/// registers that govern it.
#[derive(Clone, Copy)]
struct Board {
    chip: u64,
    out: u64,
    pwm: u8,
    grppwm: u8,
    grpfreq: u8,
    ledout: u8,
}

const PCA9635: Board = Board {
    chip: 9635,
    out: 15,
    pwm: 0x11,
    grppwm: 0x12,
    grpfreq: 0x13,
    ledout: 0x17,
};

const PCA9634: Board = Board {
    chip: 9634,
    out: 7,
    pwm: 0x09,
    grppwm: 0x0a,
    grpfreq: 0x0b,
    ledout: 0x0d,
};

const BOARDS: [Board; 2] = [PCA9635, PCA9634];

/// MODE2 as it is after reset, and with DMBLNK.
const DIM: u8 = 0x05;
const BLINK: u8 = 0x25;

/// The settings of a lamp: LEDOUT's two bits, its brightness N, the group's M and G.
#[derive(Debug)]
struct Lamp {
    mode: u8,
    n: u8,
    m: u8,
    g: u8,
}

impl Board {
    /// Awake at tick 0.
    fn with_lamp(&self, mode2: u8, lamp: &Lamp) -> Log {
        let settings = [
            [0x00, 0x01],
            [0x01, mode2],
            [self.pwm, lamp.n],
            [self.grppwm, lamp.m],
            [self.grpfreq, lamp.g],
            [self.ledout, lamp.mode << 6],
        ];
        let set = |log: Log, setting: &[u8; 2]| log.write(16, setting);
        settings.iter().fold(Log::with(self.chip, 16), set)
    }

    fn lit(&self, log: &Log, from: u64, ticks: u64) -> u64 {
        let asked = log.clone().wait(0, from).lit(0, self.out, ticks);
        asked.value("lit")
    }

    /// With N 64 and M 1 both tests hold at tick 0, the individual one fails at 64, the group's at
    /// 512.
    fn levels(&self, mode: u8, mode2: u8, oe: u8) -> Vec<u64> {
        let lamp = Lamp {
            mode,
            n: 64,
            m: 1,
            g: 0,
        };
        let log = self.with_lamp(mode2, &lamp).oe(0, oe).pin(0, self.out);
        let log = log.wait(0, 64).pin(0, self.out);
        log.wait(0, 512 - 64).pin(0, self.out).last("pin", 3)
    }
}

/// MODE2 with INVRT in bit 4, OUTDRV in bit 2 and OUTNE in bits 1 and 0.
fn mode2(invrt: u8, outdrv: u8, outne: u8) -> u8 {
    16 * invrt + 4 * outdrv + outne
}

/// 000, table 15, whose row 11 is 003; 004, table 16.
#[test]
fn outputs_when_enabled() {
    // LEDOUT, INVRT, OUTDRV, levels at ticks 0, 64 and 512
    let rows = [
        (0b00, 0, 0, [2, 2, 2]),
        (0b00, 0, 1, [1, 1, 1]),
        (0b00, 1, 0, [0, 0, 0]),
        (0b00, 1, 1, [0, 0, 0]),
        (0b01, 0, 0, [0, 0, 0]),
        (0b01, 0, 1, [0, 0, 0]),
        (0b01, 1, 0, [2, 2, 2]),
        (0b01, 1, 1, [1, 1, 1]),
        (0b10, 0, 0, [0, 2, 0]),
        (0b10, 0, 1, [0, 1, 0]),
        (0b10, 1, 0, [2, 0, 2]),
        (0b10, 1, 1, [1, 0, 1]),
        (0b11, 0, 0, [0, 2, 2]),
        (0b11, 0, 1, [0, 1, 1]),
        (0b11, 1, 0, [2, 0, 0]),
        (0b11, 1, 1, [1, 0, 0]),
    ];
    for board in BOARDS {
        for (mode, invrt, outdrv, expected) in rows {
            let levels = board.levels(mode, mode2(invrt, outdrv, 1), 0);
            let row = format!("{} {mode:02b} {invrt} {outdrv}", board.chip);
            assert_eq!(levels, expected, "{row}");
        }
    }
}

/// 000, table 13; 004, table 14; OUTNE 11 by the house rule (RULES, Pins). INVRT plays no part.
#[test]
fn outputs_when_disabled() {
    // OUTNE, INVRT, OUTDRV, level
    let rows = [
        (0b00, 0, 0, 0),
        (0b00, 0, 1, 0),
        (0b00, 1, 0, 0),
        (0b00, 1, 1, 0),
        (0b01, 0, 0, 2),
        (0b01, 0, 1, 1),
        (0b01, 1, 0, 2),
        (0b01, 1, 1, 1),
        (0b10, 0, 0, 2),
        (0b10, 0, 1, 2),
        (0b10, 1, 0, 2),
        (0b10, 1, 1, 2),
        (0b11, 0, 0, 2),
        (0b11, 0, 1, 2),
        (0b11, 1, 0, 2),
        (0b11, 1, 1, 2),
    ];
    for board in BOARDS {
        for (outne, invrt, outdrv, level) in rows {
            let levels = board.levels(0b11, mode2(invrt, outdrv, outne), 1);
            let row = format!("{} {outne:02b} {invrt} {outdrv}", board.chip);
            assert_eq!(levels, [level; 3], "{row}");
        }
    }
}

/// 000, section 1: outputs high in the default state; table 6: OUTNE 01, OUTDRV 1.
#[test]
fn outputs_of_a_fresh_driver() {
    for board in BOARDS {
        let log = Log::with(board.chip, 16).pin(0, 0).oe(0, 1).pin(0, 0);
        assert_eq!(log.last("pin", 2), [1, 1], "{}", board.chip);
    }
}

/// 000, section 7.3.3: from 0 % to 99.6 %; section 7.3.6: fully on, whatever the brightness.
#[test]
fn duty() {
    let brightness = [0x00, 0x01, 0x80, 0xff];
    // LEDOUT, lit of 256 ticks at each brightness
    let rows = [
        (0b00, [0, 0, 0, 0]),
        (0b01, [256, 256, 256, 256]),
        (0b10, [0, 1, 128, 255]),
    ];
    for board in BOARDS {
        for (mode, expected) in rows {
            for (n, lit) in brightness.into_iter().zip(expected) {
                let (m, g) = (255, 0);
                let lamp = Lamp { mode, n, m, g };
                let log = board.with_lamp(DIM, &lamp);
                assert_eq!(board.lit(&log, 0, 256), lit, "{} {lamp:?}", board.chip);
            }
        }
    }
}

/// 000, figure 6: with M = 1 two pulses of N ticks, with M = 4 eight, in the first 512 M ticks of
/// a period of 131,072, and none in the rest.
#[test]
fn group_dimming() {
    // M, ticks on, ticks off, lit ticks of the first
    let rows = [
        (0, 0, 131_072, 0),
        (1, 512, 130_560, 2 * 64),
        (4, 2_048, 129_024, 8 * 64),
        (255, 130_560, 512, 510 * 64),
    ];
    for board in BOARDS {
        for (m, on, off, lit) in rows {
            let (mode, n, g) = (0b11, 64, 0);
            let lamp = Lamp { mode, n, m, g };
            let log = board.with_lamp(DIM, &lamp);
            let got = [board.lit(&log, 0, on), board.lit(&log, on, off)];
            assert_eq!(got, [lit, 0], "{} {lamp:?}", board.chip);
        }
    }
}

/// 000, section 7.3.5, from 41 ms to 10.73 s, at half of the time on: the first half of the
/// period, the second half, the next first half. A period is G + 1 times 1,048,576 ticks, which
/// are 41.94 ms (RULES, Lamps).
#[test]
fn group_blinking() {
    // G, half a period, lit ticks: 41.94 ms, 1.007 s and 10.737 s
    let rows = [
        (0x00, 524_288, [262_144, 0, 262_144]),
        (0x17, 12_582_912, [6_291_456, 0, 6_291_456]),
        (0xff, 134_217_728, [67_108_864, 0, 67_108_864]),
    ];
    for board in BOARDS {
        for (g, half, expected) in rows {
            let (mode, n, m) = (0b11, 128, 128);
            let lamp = Lamp { mode, n, m, g };
            let log = board.with_lamp(BLINK, &lamp);
            let got = [0, half, 2 * half].map(|from| board.lit(&log, from, half));
            assert_eq!(got, expected, "{} {lamp:?}", board.chip);
        }
    }
}

/// RULES, Blink periods: 16MN(G+1) of a whole period, from any tick.
#[test]
fn whole_blink_period() {
    // G, M, N, a period, lit ticks
    let rows = [
        (0, 0, 255, 1_048_576, 0),
        (0, 255, 0, 1_048_576, 0),
        (0, 1, 1, 1_048_576, 16),
        (0, 255, 255, 1_048_576, 1_040_400),
        (9, 77, 200, 10_485_760, 2_464_000),
        (255, 1, 3, 268_435_456, 12_288),
        (255, 255, 255, 268_435_456, 266_342_400),
    ];
    for board in BOARDS {
        for (g, m, n, period, lit) in rows {
            let mode = 0b11;
            let lamp = Lamp { mode, n, m, g };
            let log = board.with_lamp(BLINK, &lamp);
            let last = (1 << 48) - period;
            for from in [0, 1, 255, 256, 4_096, 1_000_003, period - 1, period, last] {
                let got = board.lit(&log, from, period);
                assert_eq!(got, lit, "{} {lamp:?}, from {from}", board.chip);
            }
        }
    }
}

/// Both blinks alike, on outputs 0 and 1; LS 00 and 01 on outputs 2 and 3.
fn blinker(chip: u64, psc: u8, pwm: u8) -> Log {
    Log::with(chip, 0).write(96, &[0x11, psc, pwm, psc, pwm, 0x4e])
}

/// 001 and 002, sections 6.3.3 and 6.3.6; for the PCA9551 the duty formula decides.
#[test]
fn blinker_duty() {
    // PWM, lit of 256 steps: BLINK0, BLINK1, LS 00, LS 01
    let rows = [
        (9531, 0x00, [0, 0, 0, 256]),
        (9531, 0x40, [64, 64, 0, 256]),
        (9531, 0xff, [255, 255, 0, 256]),
        (9551, 0x00, [256, 256, 256, 0]),
        (9551, 0x40, [192, 192, 256, 0]),
        (9551, 0xff, [1, 1, 256, 0]),
    ];
    for (chip, pwm, expected) in rows {
        let log = blinker(chip, 0, pwm);
        let log = (0..4).fold(log, |log, out| log.lit(0, out, 256));
        assert_eq!(log.last("lit", 4), expected, "{chip} {pwm:02x}");
    }
}

/// 001 and 002, section 6.3.2: 1/152 s and 1.684 s on the PCA9531, 1/38 s and 6.74 s on the
/// PCA9551.
#[test]
fn blinker_period() {
    // PSC, half a period, lit steps of each half
    let rows = [
        (9531, 0x00, 128, [128, 0]),
        (9531, 0xff, 32_768, [32_768, 0]),
        (9551, 0x00, 128, [0, 128]),
        (9551, 0xff, 32_768, [0, 32_768]),
    ];
    for (chip, psc, half, expected) in rows {
        let log = blinker(chip, psc, 0x80).lit(0, 0, half);
        let log = log.wait(0, half).lit(0, 0, half);
        assert_eq!(log.last("lit", 2), expected, "{chip} {psc:02x}");
    }
}

/// RULES, Marked examples, 7 to 9, and the edges of the two bounds. With M: above at t = 0 and
/// w = 512M - 256 + N, below from there on at w = 131,328 - 512M - N.
#[test]
fn lit_in_a_window() {
    // LEDOUT, M, N, t, w, lit
    let rows = [
        (0b10, 255, 64, 0, 100, 64),
        (0b10, 255, 64, 64, 192, 0),
        (0b11, 1, 64, 0, 320, 128),
        (0b11, 1, 64, 320, 130_752, 0),
        (0b11, 255, 255, 0, 130_559, 130_050),
        (0b11, 255, 255, 130_559, 513, 0),
        (0b11, 128, 1, 0, 65_281, 256),
        (0b11, 128, 1, 65_281, 65_791, 0),
        (0b10, 255, 255, 0, 255, 255),
        (0b10, 255, 255, 255, 1, 0),
        (0b10, 255, 1, 1, 255, 0),
    ];
    for (mode, m, n, t, w, lit) in rows {
        let lamp = Lamp { mode, n, m, g: 0 };
        let log = PCA9635.with_lamp(DIM, &lamp);
        assert_eq!(PCA9635.lit(&log, t, w), lit, "{lamp:?}, {w} from {t}");
    }
}

/// RULES, Marked examples, 10 and 11: output 0 in BLINK0.
#[test]
fn blinker_lit_in_a_window() {
    // PSC0, PWM0, steps, lit; FFh is the PCA9551's PSC0 after reset
    let rows = [
        (9531, 0x01, 0x80, 512, 256),
        (9551, 0xff, 0x00, 65_536, 65_536),
    ];
    for (chip, psc0, pwm0, steps, lit) in rows {
        let log = Log::with(chip, 0).write(96, &[0x11, psc0, pwm0]);
        let log = log.write(96, &[0x05, 0x02]).lit(0, 0, steps);
        assert_eq!(log.value("lit"), lit, "{chip}");
    }
}
