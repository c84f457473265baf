//! What the data sheets and the rules fix: limits, refusals, registers.

/// Most boards on a bus.
pub const MAX_BOARDS: usize = 8;
/// Most outputs of a board, and the outputs of a blinker.
pub const MAX_OUTPUTS: usize = 16;
pub const BLINKER_OUTPUTS: usize = 8;
/// Greatest tick or step count, greatest wait and greatest window of lit.
pub const MAX_COUNT: u64 = 1 << 48;
/// Most that an output's two totals hold together.
pub const MAX_TOTAL: u64 = 1 << 56;

// Numbers of refusals.
pub const UNKNOWN_CHIP: u64 = 1;
pub const BAD_ADDRESS: u64 = 2;
pub const NO_BOARD: u64 = 3;
pub const BAD_LINE: u64 = 4;
pub const OUT_OF_TURN: u64 = 5;
pub const PAST_LIMIT: u64 = 6;
pub const OUT_OF_RANGE: u64 = 7;
pub const NO_OUTPUT: u64 = 9;
pub const WRONG_SORT: u64 = 10;

// Pin levels.
pub const LOW: u64 = 0;
pub const HIGH: u64 = 1;
pub const HIGH_Z: u64 = 2;

// Bytes of the software reset call: its address byte, the same with the read
// bit, which nobody answers, and the two that follow.
pub const RESET_CALL: u8 = 0x06;
pub const RESET_CALL_READ: u8 = 0x07;
pub const RESET_FIRST: u8 = 0xA5;
pub const RESET_SECOND: u8 = 0x5A;

/// Where a driver's registers are. MODE1, MODE2 and PWM0 are the same on both;
/// the addresses of SUBADR1, 2, 3 and ALLCALLADR are the last four.
#[derive(Debug)]
pub struct DriverMap {
    pub outputs: usize,
    pub grppwm: u8,
    pub grpfreq: u8,
    pub ledout: u8,
    pub subadr1: u8,
    pub last: u8,
}

pub const PCA9635: DriverMap = DriverMap {
    outputs: 16,
    grppwm: 0x12,
    grpfreq: 0x13,
    ledout: 0x14,
    subadr1: 0x18,
    last: 0x1B,
};

pub const PCA9634: DriverMap = DriverMap {
    outputs: 8,
    grppwm: 0x0A,
    grpfreq: 0x0B,
    ledout: 0x0C,
    subadr1: 0x0E,
    last: 0x11,
};

pub const MODE1: u8 = 0;
pub const MODE2: u8 = 1;
pub const PWM0: u8 = 2;

// MODE1 after reset, and its bits. The bit of SUBADR1 is 8, of SUBADR2 4, of
// SUBADR3 2, of ALLCALLADR 1.
pub const MODE1_RESET: u8 = 0x11;
pub const MODE1_WRITABLE: u8 = 0x1F;
pub const SLEEP: u8 = 0x10;
pub const SUB1: u8 = 0x08;

// MODE2 after reset, and its bits.
pub const MODE2_RESET: u8 = 0x05;
pub const MODE2_WRITABLE: u8 = 0x3F;
pub const DMBLNK: u8 = 0x20;
pub const INVRT: u8 = 0x10;
pub const OCH: u8 = 0x08;
pub const OUTDRV: u8 = 0x04;
pub const OUTNE: u8 = 0x03;

/// SUBADR1, 2, 3 and ALLCALLADR after reset; bit 0 is read only.
pub const SHARED_RESET: [u8; 4] = [0xE2, 0xE4, 0xE8, 0xE0];
pub const ADDRESS_WRITABLE: u8 = 0xFE;

/// A driver's control byte after reset: option 100, register 0.
pub const CONTROL_RESET: u8 = 0x80;

// Outputs' two bits in LEDOUT.
pub const OFF: u8 = 0;
pub const ON: u8 = 1;
pub const INDIVIDUAL: u8 = 2;

/// Ticks of an individual brightness, and of group dimming.
pub const BRIGHTNESS_PERIOD: u64 = 256;
pub const DIMMING_PERIOD: u64 = 131_072;
/// Lit ticks of group dimming for each step of GRPPWM.
pub const DIMMING_STEP: u64 = 512;
/// Ticks of group blinking, and lit ones for each step of GRPPWM, for each
/// step of GRPFREQ.
pub const BLINK_PERIOD: u64 = 1_048_576;
pub const BLINK_STEP: u64 = 4_096;

// Registers of a blinker.
pub const INPUT: u8 = 0;
pub const PSC0: u8 = 1;
pub const BLINKER_PWM0: u8 = 2;
pub const PSC1: u8 = 3;
pub const BLINKER_PWM1: u8 = 4;
pub const LS0: u8 = 5;
pub const LS1: u8 = 6;

/// Bit I of a blinker's control byte: the pointer moves.
pub const INCREMENT: u8 = 0x10;

/// A blinker's own address is this with its pins A2 to A0.
pub const BLINKER_ADDRESS: u8 = 0x60;

/// Registers of the blinkers after reset, INPUT first.
pub const PCA9531_RESET: [u8; 7] = [0, 0x00, 0x80, 0x00, 0x80, 0x00, 0x00];
pub const PCA9551_RESET: [u8; 7] = [0, 0xFF, 0x80, 0xFF, 0x80, 0x55, 0x55];

/// Registers that a driver's pointer can name.
pub const REGISTERS: usize = 32;

impl DriverMap {
    pub fn reset_registers(&self) -> [u8; REGISTERS] {
        let mut registers = [0; REGISTERS];
        registers[MODE1 as usize] = MODE1_RESET;
        registers[MODE2 as usize] = MODE2_RESET;
        registers[self.grppwm as usize] = 0xFF;
        registers[self.subadr1 as usize..=self.last as usize].copy_from_slice(&SHARED_RESET);
        registers
    }

    /// Whether a control byte has an option and a register that exist.
    pub fn is_control(&self, byte: u8) -> bool {
        !matches!(byte >> 5, 1..=3) && byte & 0x1F <= self.last
    }

    /// The control byte after a legal one, once a byte is read or written.
    pub const fn next_control(&self, control: u8) -> u8 {
        let (first, last) = match control >> 5 {
            0 => return control,
            5 => (PWM0, self.grppwm - 1),
            6 => (self.grppwm, self.grpfreq),
            7 => (PWM0, self.grpfreq),
            _ => (MODE1, self.last),
        };
        let register = control & 0x1F;
        let next = if register == last {
            first
        } else if register == self.last {
            0
        } else {
            register + 1
        };
        control & 0xE0 | next & 0x1F
    }
}

/// The level of a driver's pin.
pub fn driver_pin(mode2: u8, oe: bool, is_lit: bool) -> u64 {
    let driven_high = if mode2 & OUTDRV == 0 { HIGH_Z } else { HIGH };
    match mode2 & OUTNE {
        0 if oe => LOW,
        1 if oe => driven_high,
        _ if oe => HIGH_Z,
        _ if is_lit != (mode2 & INVRT != 0) => LOW,
        _ => driven_high,
    }
}

/// Ticks among 0 .. x-1 that are below `on` in their period.
pub fn ticks_below(x: u64, period: u64, on: u64) -> u64 {
    x / period * on + (x % period).min(on)
}

/// Refuses a chip that is unknown, or cannot have the hardware address.
pub fn ensure_chip(chip: u64, address: u64) -> Result<(), u64> {
    match chip {
        9635 | 9634 if address <= 127 && address != 3 && address != 112 => Ok(()),
        9531 | 9551 if address <= 7 => Ok(()),
        9635 | 9634 | 9531 | 9551 => Err(BAD_ADDRESS),
        _ => Err(UNKNOWN_CHIP),
    }
}
