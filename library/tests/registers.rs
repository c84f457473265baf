//! Worked examples of the data sheets on addresses and registers: 000 is the PCA9635, 004 the
//! PCA9634, 001 the PCA9531, 002 the PCA9551; RULES is docs/RULES.md.

mod log;

use log::Log;

/// A chip where most examples have it, and its registers.
struct Sheet {
    chip: u64,
    /// What its address pins say.
    pins: u8,
    /// The 7-bit address that follows from them.
    address: u8,
    /// The control byte for all registers, from the first on.
    all: u8,
    /// The registers after reset.
    fresh: &'static [u8],
}

// 000, section 7.3
const PCA9635: Sheet = Sheet {
    chip: 9635,
    pins: 16,
    address: 16,
    all: 0x80,
    fresh: &[
        0x91, 0x05, 0, 0, 0, 0, 0, 0, 0, 0, 0, 0, 0, 0, 0, 0, 0, 0, 0xff, 0, 0, 0, 0, 0, 0xe2,
        0xe4, 0xe8, 0xe0,
    ],
};

// 004, section 7.3
const PCA9634: Sheet = Sheet {
    chip: 9634,
    fresh: &[
        0x91, 0x05, 0, 0, 0, 0, 0, 0, 0, 0, 0xff, 0, 0, 0, 0xe2, 0xe4, 0xe8, 0xe0,
    ],
    ..PCA9635
};

// 001, section 6.3, with PSC0 as RULES has it
const PCA9531: Sheet = Sheet {
    chip: 9531,
    pins: 7,
    address: 103,
    all: 0x10,
    fresh: &[0xff, 0x00, 0x80, 0x00, 0x80, 0x00, 0x00],
};

// 002, section 6.3
const PCA9551: Sheet = Sheet {
    chip: 9551,
    fresh: &[0xff, 0xff, 0x80, 0xff, 0x80, 0x55, 0x55],
    ..PCA9531
};

impl Sheet {
    fn bus(&self) -> Log {
        Log::with(self.chip, self.pins)
    }

    fn is_driver(&self) -> bool {
        self.all == 0x80
    }

    /// What a driver's register shows of a byte written to it (RULES, Driver registers). A
    /// blinker's registers have no read-only bits; INPUT is another matter.
    fn shown(&self, register: usize, byte: u8, control: u8) -> u8 {
        let subadr1 = self.fresh.len() - 4;
        match register {
            _ if !self.is_driver() => byte,
            0 => control & 0xe0 | byte & 0x1f,
            1 => byte & 0x3f,
            _ if register >= subadr1 => byte & 0xfe,
            _ => byte,
        }
    }

    /// All registers at the end of a log.
    fn registers(&self, log: Log) -> Vec<u8> {
        let n = self.fresh.len();
        log.read(self.address, self.all, n).bytes(n)
    }
}

/// From one register to another.
type Run = (usize, usize);

/// The registers that the pointer runs through after a control byte: 000 and 004, section 7.2;
/// 001 and 002, section 6.2.
const SEQUENCES: [(Sheet, u8, &[Run]); 17] = [
    // the example with F4h
    (
        PCA9635,
        0xf4,
        &[(0x14, 0x1b), (0, 0x13), (2, 0x13), (2, 0x13), (2, 2)],
    ),
    // the example with ECh
    (PCA9634, 0xec, &[(0x0c, 0x11), (0, 0x0b), (2, 0x0b), (2, 2)]),
    // 000, table 3
    (PCA9635, 0x05, &[(5, 5), (5, 5), (5, 5), (5, 5)]),
    (PCA9635, 0x9a, &[(0x1a, 0x1b), (0, 1)]),
    (PCA9635, 0xb0, &[(0x10, 0x11), (2, 3)]),
    (PCA9635, 0xb2, &[(0x12, 0x1b), (0, 0x11), (2, 2)]),
    (PCA9635, 0xd2, &[(0x12, 0x13), (0x12, 0x13)]),
    (PCA9635, 0xf2, &[(0x12, 0x13), (2, 3)]),
    // 004, table 4
    (PCA9634, 0x05, &[(5, 5), (5, 5), (5, 5), (5, 5)]),
    (PCA9634, 0x90, &[(0x10, 0x11), (0, 1)]),
    (PCA9634, 0xa8, &[(8, 9), (2, 3)]),
    (PCA9634, 0xca, &[(0x0a, 0x0b), (0x0a, 0x0b)]),
    (PCA9634, 0xea, &[(0x0a, 0x0b), (2, 3)]),
    // 001 and 002, section 6.2
    (PCA9531, 0x05, &[(5, 5), (5, 5), (5, 5), (5, 5)]),
    (PCA9531, 0x15, &[(5, 6), (0, 1)]),
    (PCA9551, 0x05, &[(5, 5), (5, 5), (5, 5), (5, 5)]),
    (PCA9551, 0x15, &[(5, 6), (0, 1)]),
];

fn run_through(runs: &[Run]) -> impl Iterator<Item = usize> + '_ {
    runs.iter().flat_map(|&(first, last)| first..=last)
}

/// Bytes 3, 6, 9 and so on are written; the last one to a register stays there.
#[test]
fn the_pointer_while_writing() {
    for (sheet, control, runs) in SEQUENCES {
        let mut expected = sheet.fresh.to_vec();
        let mut message = vec![control];
        for (register, byte) in run_through(runs).zip((3..).step_by(3)) {
            message.push(byte);
            expected[register] = sheet.shown(register, byte, sheet.all);
        }
        if !sheet.is_driver() {
            // INPUT takes no byte and shows the pins
            expected.remove(0);
        }
        let held = sheet.registers(sheet.bus().write(sheet.address, &message));
        let held = &held[held.len() - expected.len()..];
        assert_eq!(held, expected, "{} {control:02x}", sheet.chip);
    }
}

/// Register r gets 40h + 2r in a message of its own, then all are read along the sequence.
#[test]
fn the_pointer_while_reading() {
    for (sheet, control, runs) in SEQUENCES {
        let byte = |register: usize| 0x40 + 2 * register as u8;
        let filled = (0..sheet.fresh.len()).fold(sheet.bus(), |log, register| {
            log.write(sheet.address, &[register as u8, byte(register)])
        });
        let shown = |register| match (sheet.chip, register) {
            // LS 4Ah and 4Ch: outputs 2, 4 and 6 are 00, unlit; the others are lit at step 0
            (9531, 0) => 0x54,
            // the same outputs are lit, the others are not
            (9551, 0) => 0xab,
            _ => sheet.shown(register, byte(register), control),
        };
        let expected: Vec<u8> = run_through(runs).map(shown).collect();
        let n = expected.len();
        let got = filled.read(sheet.address, control, n).bytes(n);
        assert_eq!(got, expected, "{} {control:02x}", sheet.chip);
    }
}

/// The registers after reset; in 000, figure 14, MODE1 comes again after the last.
#[test]
fn a_fresh_chip() {
    let rows = [
        (PCA9635, 28),
        (PCA9634, 18),
        (PCA9531, 7),
        (PCA9551, 7),
        (PCA9635, 30),
        (PCA9634, 20),
    ];
    for (sheet, n) in rows {
        let got = sheet.bus().read(sheet.address, sheet.all, n).bytes(n);
        let expected: Vec<u8> = sheet.fresh.iter().copied().cycle().take(n).collect();
        assert_eq!(got, expected, "{}, {n} bytes", sheet.chip);
    }
}

/// MODE1 shows the auto-increment option of the control byte (000, table 5).
#[test]
fn mode1_under_each_option() {
    let rows = [
        (0x00, 0x11),
        (0x80, 0x91),
        (0xa0, 0xb1),
        (0xc0, 0xd1),
        (0xe0, 0xf1),
    ];
    for sheet in [PCA9635, PCA9634] {
        for (control, mode1) in rows {
            let got = sheet.bus().read(sheet.address, control, 1).bytes(1);
            assert_eq!(got, [mode1], "{} {control:02x}", sheet.chip);
        }
    }
}

/// Who acknowledges each of these bytes, as the next one after the log: bit i for position i.
fn acks(log: &Log, bytes: &[u8]) -> Vec<u64> {
    let ack = |&byte| log.clone().put(byte).value("put");
    bytes.iter().map(ack).collect()
}

/// 000, sections 7.1.2 and 7.1.3, table 5: ALLCALLADR, SUBADR1, 2 and 3 as they are after reset,
/// for writes and reads, under bits 3 to 0 of MODE1.
#[test]
fn group_addresses() {
    let addresses = [0xe0, 0xe1, 0xe2, 0xe3, 0xe4, 0xe5, 0xe8, 0xe9];
    let rows = [
        (None, [1, 1, 0, 0, 0, 0, 0, 0]),
        (Some(0x00), [0, 0, 0, 0, 0, 0, 0, 0]),
        (Some(0x01), [1, 1, 0, 0, 0, 0, 0, 0]),
        (Some(0x02), [0, 0, 0, 0, 0, 0, 1, 1]),
        (Some(0x04), [0, 0, 0, 0, 1, 1, 0, 0]),
        (Some(0x08), [0, 0, 1, 1, 0, 0, 0, 0]),
        (Some(0x1f), [1, 1, 1, 1, 1, 1, 1, 1]),
    ];
    for sheet in [PCA9635, PCA9634] {
        for (mode1, expected) in rows {
            let log = match mode1 {
                Some(mode1) => sheet.bus().write(sheet.address, &[0x00, mode1]),
                None => sheet.bus(),
            };
            let got = acks(&log.start(), &addresses);
            assert_eq!(got, expected, "{} MODE1 {mode1:02x?}", sheet.chip);
        }
    }
}

/// 000, sections 7.1.1 and 7.1.4: a driver's own address, and the software reset's for writes
/// only; 001 and 002, figure 5: 1100 A2 A1 A0, here with A2 and A0 high.
#[test]
fn own_addresses() {
    let driver = [0x2a, 0x2b, 0x2c, 0x06, 0x07];
    let blinker = [0xca, 0xcb, 0xc8, 0xe0, 0x06];
    let rows = [
        (9635, 21, driver, [1, 1, 0, 1, 0]),
        (9634, 21, driver, [1, 1, 0, 1, 0]),
        (9531, 5, blinker, [1, 1, 0, 0, 0]),
        (9551, 5, blinker, [1, 1, 0, 0, 0]),
    ];
    for (chip, pins, addresses, expected) in rows {
        let got = acks(&Log::with(chip, pins).start(), &addresses);
        assert_eq!(got, expected, "{chip} {addresses:02x?}");
    }
}

/// 000, table 4 note 1 and table 3; 004, tables 5 and 4; 001 and 002, figure 6.
#[test]
fn control_bytes() {
    let pca9635 = [0x1b, 0x1c, 0x1f, 0x20, 0x40, 0x60, 0x80, 0xa0, 0xc0, 0xe0];
    let pca9634 = [0x11, 0x12, 0x1f, 0x20, 0x40, 0x60, 0x80, 0xa0, 0xc0, 0xe0];
    let blinker = [0x00, 0x06, 0x07, 0x08, 0x10, 0x16, 0x17, 0x20, 0x40, 0x80];
    let rows = [
        (PCA9635, pca9635, [1, 0, 0, 0, 0, 0, 1, 1, 1, 1]),
        (PCA9634, pca9634, [1, 0, 0, 0, 0, 0, 1, 1, 1, 1]),
        (PCA9531, blinker, [1, 1, 0, 0, 1, 1, 0, 0, 0, 0]),
        (PCA9551, blinker, [1, 1, 0, 0, 1, 1, 0, 0, 0, 0]),
    ];
    for (sheet, controls, expected) in rows {
        let selected = sheet.bus().start().put(2 * sheet.address);
        let got = acks(&selected, &controls);
        assert_eq!(got, expected, "{} {controls:02x?}", sheet.chip);
    }
}

/// A PCA9635, a PCA9634 and a PCA9531, each with 40h in register 02.
fn three_chips() -> Log {
    let bus = Log::with(9635, 16).add(9634, 17).add(9531, 0);
    let set = |log: Log, address| log.write(address, &[0x02, 0x40]);
    [16, 17, 96].into_iter().fold(bus, set)
}

/// Two bytes of the first chip from where its pointer stands, then register 02 of each chip. A
/// control byte of 80h shows as MODE1 and MODE2, one of 02h as PWM0 twice.
fn after_the_call(log: Log) -> Vec<u8> {
    let log = log.start().put(0x21).gets(2).stop();
    let read = |log: Log, address| log.read(address, 0x02, 1);
    [16, 17, 96].into_iter().fold(log, read).bytes(5)
}

const RESET: [u8; 5] = [0x91, 0x05, 0x00, 0x00, 0x40];
const KEPT: [u8; 5] = [0x40; 5];

/// 000 and 004, section 7.6: both drivers acknowledge, at positions 0 and 1.
#[test]
fn software_reset_call() {
    let rows: [(&[u8], &[u64], [u8; 5]); 7] = [
        (&[0x06, 0xa5, 0x5a], &[3, 3, 3], RESET),
        (&[0x06, 0xa5, 0x5a, 0x00], &[3, 3, 3, 0], KEPT),
        (&[0x06, 0xa5, 0x5a, 0x5a], &[3, 3, 3, 0], KEPT),
        (&[0x06, 0xa5, 0xa5], &[3, 3, 0], KEPT),
        (&[0x06, 0x5a, 0xa5], &[3, 0, 0], KEPT),
        (&[0x06, 0xa5, 0x00, 0x5a], &[3, 3, 0, 0], KEPT),
        (&[0x06, 0xa5], &[3, 3], KEPT),
    ];
    for (call, acknowledged, registers) in rows {
        let log = three_chips().start().puts(call).stop();
        assert_eq!(log.last("put", call.len()), acknowledged, "{call:02x?}");
        assert_eq!(after_the_call(log), registers, "{call:02x?}");
    }
}

/// A repeated START after both right bytes resets nothing, and 07h is not acknowledged.
#[test]
fn software_reset_wants_its_stop_and_a_write() {
    let called = three_chips().start().puts(&[0x06, 0xa5, 0x5a]);
    assert_eq!(after_the_call(called.start().stop()), KEPT);
    assert_eq!(three_chips().start().put(0x07).value("put"), 0);
}

/// 000, figure 15: four PCA9635 awake, with the all call address AAh.
fn four_drivers(mode2: u8) -> Log {
    (16..20).fold(Log::default(), |log, address| {
        let awake = log.add(9635, address).write(address, &[0x00, 0x01]);
        let with_mode2 = awake.write(address, &[0x01, mode2]);
        with_mode2.write(address, &[0x9b, 0xaa])
    })
}

/// Whether outputs 0, 3 and 4 are lit, of each of the four.
fn four_drivers_lit(log: Log) -> Vec<u64> {
    let ask = |log: Log, dev| log.lit(dev, 0, 1).lit(dev, 3, 1).lit(dev, 4, 1);
    (0..4).fold(log, ask).last("lit", 12)
}

/// 000, figure 15: LED0 to LED3 of all go on by one message, at the acknowledge where OCH is 1,
/// else at the STOP. The figure's LEDOUT number is one of an older chip; table 4 has 14h.
#[test]
fn all_call() {
    let started = four_drivers(0x0d).start();
    assert_eq!(acks(&started, &[0xaa, 0xab, 0xe0]), [15, 15, 0]);

    let (off, on) = ([0, 0, 0], [1, 1, 0]);
    // after AA 94, after 55, after a repeated START or a STOP
    let rows = [(0x0d, [off, on, on, on]), (0x05, [off, off, off, on])];
    for (mode2, expected) in rows {
        let selected = four_drivers(mode2).start().put(0xaa).put(0x94);
        let sent = selected.clone().put(0x55);
        let moments = [
            selected,
            sent.clone(),
            sent.clone().start(),
            sent.clone().stop(),
        ];
        for (i, (log, lit)) in moments.into_iter().zip(expected).enumerate() {
            let got = four_drivers_lit(log);
            assert_eq!(got, lit.repeat(4), "MODE2 {mode2:02x}, moment {i}");
        }
    }
}

/// 000, figure 12: every register in one message. Read-only bits ignore what is written.
#[test]
fn all_registers_written() {
    let rows: [(Sheet, &[u8], &[u8]); 2] = [
        (
            PCA9635,
            b"\x61\xc5\x10\x11\x12\x13\x14\x15\x16\x17\x18\x19\x1a\x1b\x1c\x1d\x1e\x1f\
              \x20\x21\xaa\xab\xac\xad\x31\x33\x35\x37",
            b"\x81\x05\x10\x11\x12\x13\x14\x15\x16\x17\x18\x19\x1a\x1b\x1c\x1d\x1e\x1f\
              \x20\x21\xaa\xab\xac\xad\x30\x32\x34\x36",
        ),
        (
            PCA9634,
            b"\x61\xc5\x10\x11\x12\x13\x14\x15\x16\x17\x20\x21\xaa\xab\x31\x33\x35\x37",
            b"\x81\x05\x10\x11\x12\x13\x14\x15\x16\x17\x20\x21\xaa\xab\x30\x32\x34\x36",
        ),
    ];
    for (sheet, sent, held) in rows {
        let message = [&[0x80], sent].concat();
        let log = sheet.bus().write(sheet.address, &message);
        assert_eq!(sheet.registers(log), held, "{}", sheet.chip);
    }
}

/// 000, figure 13: after the last PWM register the first again. GRPPWM stays FFh.
#[test]
fn brightness_written() {
    let rows: [(Sheet, u8, &[u8]); 2] = [
        (
            PCA9635,
            0x11,
            b"\x11\x02\x03\x04\x05\x06\x07\x08\x09\x0a\x0b\x0c\x0d\x0e\x0f\x10\xff",
        ),
        (PCA9634, 0x09, b"\x09\x02\x03\x04\x05\x06\x07\x08\xff"),
    ];
    for (sheet, last, held) in rows {
        let message: Vec<u8> = [0xa2].into_iter().chain(0x01..=last).collect();
        let log = sheet.bus().write(sheet.address, &message);
        let log = log.read(sheet.address, 0x82, held.len());
        assert_eq!(log.bytes(held.len()), held, "{}", sheet.chip);
    }
}

/// 004, section 10, question 4: the registers are set, and no LED goes on while SLEEP is 1.
#[test]
fn asleep() {
    for (sheet, ledout0) in [(PCA9635, 0x14), (PCA9634, 0x0c)] {
        let set = sheet.bus().write(sheet.address, &[ledout0, 0x55]);
        let held = set.clone().read(sheet.address, ledout0, 1).bytes(1);
        let awake = set.clone().write(sheet.address, &[0x00, 0x01]);
        assert_eq!(held, [0x55], "{}", sheet.chip);
        assert_eq!(set.lit(0, 0, 256).value("lit"), 0, "{}", sheet.chip);
        assert_eq!(awake.lit(0, 0, 256).value("lit"), 256, "{}", sheet.chip);
    }
}

/// 001, section 6.4 and figure 14: LED0 to LED5 on, LED6 and LED7 inputs, of level 1 both, then 0
/// and 1. 002 has LS 00 for an LED that is on and 01 for an input.
#[test]
fn inputs() {
    let rows = [
        (PCA9531, [0x55, 0x05], 0xff, [0xc0, 0xc0]),
        (PCA9531, [0x55, 0x05], 0xbf, [0x80, 0x80]),
        (PCA9551, [0x00, 0x50], 0xff, [0xc0, 0xc0]),
        (PCA9551, [0x00, 0x50], 0xbf, [0x80, 0x80]),
    ];
    for (sheet, [ls0, ls1], level, input) in rows {
        let set = sheet.bus().write(sheet.address, &[0x15, ls0, ls1]);
        let got = set.ext(0, level).read(sheet.address, 0x00, 2).bytes(2);
        assert_eq!(got, input, "{} level {level:02x}", sheet.chip);
    }
}
