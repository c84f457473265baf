//! PCA9531 and PCA9551, for all replays alike: a blinker moves by its own waits
//! alone, so that they differ only in when its totals are counted.

use crate::chips::{
    ticks_below, BLINKER_ADDRESS, BLINKER_OUTPUTS, BLINKER_PWM0, BLINKER_PWM1, HIGH_Z, INCREMENT,
    INPUT, LOW, LS0, LS1, PCA9531_RESET, PCA9551_RESET, PSC0, PSC1,
};

pub struct Blinker {
    /// A PCA9551, which is lit where the PCA9531 is not, in every mode.
    inverse: bool,
    pins: u8,
    control: u8,
    registers: [u8; 7],
    pub outside: u8,
    pub steps: u64,
}

impl Blinker {
    pub fn new(inverse: bool, pins: u8) -> Blinker {
        Blinker {
            inverse,
            pins,
            control: 0,
            registers: match inverse {
                true => PCA9551_RESET,
                false => PCA9531_RESET,
            },
            outside: 255,
            steps: 0,
        }
    }

    pub fn reset(&mut self) {
        *self = Blinker {
            outside: self.outside,
            ..Blinker::new(self.inverse, self.pins)
        };
    }

    pub fn address(&self) -> u8 {
        BLINKER_ADDRESS | self.pins
    }

    fn pointer(&self) -> u8 {
        self.control & 7
    }

    /// Takes a control byte if it is legal.
    pub fn set_control(&mut self, byte: u8) -> bool {
        let legal = byte & !INCREMENT <= LS1;
        if legal {
            self.control = byte;
        }
        legal
    }

    fn move_pointer(&mut self) {
        if self.control & INCREMENT != 0 {
            self.control = match self.pointer() {
                LS1 => INCREMENT,
                _ => self.control + 1,
            };
        }
    }

    pub fn read(&mut self) -> u8 {
        let byte = match self.pointer() {
            INPUT => self.input(),
            register => self.registers[register as usize],
        };
        self.move_pointer();
        byte
    }

    /// 0 where an output is lit, else the outside level.
    fn input(&self) -> u8 {
        let lit = |output: usize| u8::from(self.is_lit(output)) << output;
        let all_lit: u8 = (0..BLINKER_OUTPUTS).map(lit).sum();
        self.outside & !all_lit
    }

    pub fn write(&mut self, byte: u8) {
        if self.pointer() != INPUT {
            self.registers[self.pointer() as usize] = byte;
        }
        self.move_pointer();
    }

    /// The two bits of an output.
    pub fn mode(&self, output: usize) -> u8 {
        let byte = self.registers[LS0 as usize + output / 4];
        byte >> (2 * (output % 4)) & 3
    }

    /// Steps of a count, and the counts below PWM, for mode 10 or 11.
    fn blink(&self, mode: u8) -> (u64, u64) {
        let (psc, pwm) = match mode {
            2 => (PSC0, BLINKER_PWM0),
            _ => (PSC1, BLINKER_PWM1),
        };
        let register = |number: u8| u64::from(self.registers[number as usize]);
        (register(psc) + 1, register(pwm))
    }

    fn is_lit(&self, output: usize) -> bool {
        let lit = match self.mode(output) {
            0 => false,
            1 => true,
            mode => {
                let (steps, pwm) = self.blink(mode);
                self.steps / steps % 256 < pwm
            }
        };
        lit != self.inverse
    }

    /// Lit steps among 0 .. x-1 of an output in a mode, by whole periods.
    pub fn lit_below(&self, mode: u8, x: u64) -> u64 {
        let upright = match mode {
            0 => 0,
            1 => x,
            _ => {
                let (steps, pwm) = self.blink(mode);
                ticks_below(x, 256 * steps, pwm * steps)
            }
        };
        match self.inverse {
            true => x - upright,
            false => upright,
        }
    }

    /// Lit steps among the next ones.
    pub fn lit_steps(&self, output: usize, steps: u64) -> u64 {
        let mode = self.mode(output);
        self.lit_below(mode, self.steps + steps) - self.lit_below(mode, self.steps)
    }

    pub fn pin(&self, output: usize) -> u64 {
        match self.is_lit(output) {
            true => LOW,
            false => HIGH_Z,
        }
    }
}
