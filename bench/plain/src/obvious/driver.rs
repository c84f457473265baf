//! PCA9635 and PCA9634.

use crate::chips::{
    driver_pin, ticks_below, DriverMap, ADDRESS_WRITABLE, BLINK_PERIOD, BLINK_STEP,
    BRIGHTNESS_PERIOD, CONTROL_RESET, DIMMING_PERIOD, DIMMING_STEP, DMBLNK, INDIVIDUAL, MODE1,
    MODE1_WRITABLE, MODE2, MODE2_WRITABLE, OCH, OFF, ON, PWM0, REGISTERS, SLEEP, SUB1,
};

pub struct Driver {
    pub map: &'static DriverMap,
    address: u8,
    control: u8,
    /// As written, by number.
    registers: [u8; REGISTERS],
    /// As in effect; PWM0 through LEDOUT alone are looked at.
    in_effect: [u8; REGISTERS],
    pub oe: bool,
    pub ticks: u64,
}

impl Driver {
    pub fn new(map: &'static DriverMap, address: u8) -> Driver {
        let registers = map.reset_registers();
        Driver {
            map,
            address,
            control: CONTROL_RESET,
            registers,
            in_effect: registers,
            oe: false,
            ticks: 0,
        }
    }

    pub fn reset(&mut self) {
        *self = Driver {
            oe: self.oe,
            ..Driver::new(self.map, self.address)
        };
    }

    fn mode1(&self) -> u8 {
        self.registers[MODE1 as usize]
    }

    fn mode2(&self) -> u8 {
        self.registers[MODE2 as usize]
    }

    pub fn is_awake(&self) -> bool {
        self.mode1() & SLEEP == 0
    }

    pub fn advance(&mut self, ticks: u64) {
        if self.is_awake() {
            self.ticks += ticks;
        }
    }

    /// Its own address, and those of the shared ones that MODE1 lets in.
    pub fn answers(&self, address: u8) -> bool {
        let subadr1 = self.map.subadr1 as usize;
        let is_shared = |index: usize| {
            self.mode1() & (SUB1 >> index) != 0 && self.registers[subadr1 + index] >> 1 == address
        };
        self.address == address || (0..4).any(is_shared)
    }

    fn pointer(&self) -> u8 {
        self.control & 0x1F
    }

    /// Takes a control byte if it is legal.
    pub fn set_control(&mut self, byte: u8) -> bool {
        let legal = self.map.is_control(byte);
        if legal {
            self.control = byte;
        }
        legal
    }

    fn move_pointer(&mut self) {
        self.control = self.map.next_control(self.control);
    }

    pub fn read(&mut self) -> u8 {
        let byte = match self.pointer() {
            MODE1 => self.control & 0xE0 | self.mode1(),
            register => self.registers[register as usize],
        };
        self.move_pointer();
        byte
    }

    pub fn write(&mut self, byte: u8) {
        let register = self.pointer();
        let place = register as usize;
        if register == MODE1 {
            let was_awake = self.is_awake();
            self.registers[place] = byte & MODE1_WRITABLE;
            if self.is_awake() && !was_awake {
                self.ticks = 0;
            }
        } else if register == MODE2 {
            self.registers[place] = byte & MODE2_WRITABLE;
        } else if register >= self.map.subadr1 {
            self.registers[place] = byte & ADDRESS_WRITABLE;
        } else {
            self.registers[place] = byte;
            if self.is_awake() && self.mode2() & OCH != 0 {
                self.in_effect[place] = byte;
            }
        }
        self.move_pointer();
    }

    pub fn stop(&mut self) {
        if self.is_awake() {
            self.in_effect = self.registers;
        }
    }

    /// The two bits of an output.
    fn mode(&self, output: usize) -> u8 {
        let byte = self.in_effect[self.map.ledout as usize + output / 4];
        byte >> (2 * (output % 4)) & 3
    }

    fn brightness(&self, output: usize) -> u64 {
        self.in_effect[PWM0 as usize + output].into()
    }

    /// The group's period, and for how much of it the group is lit.
    fn group(&self) -> (u64, u64) {
        let dimming = u64::from(self.in_effect[self.map.grppwm as usize]);
        if self.mode2() & DMBLNK == 0 {
            (DIMMING_PERIOD, DIMMING_STEP * dimming)
        } else {
            let steps = u64::from(self.in_effect[self.map.grpfreq as usize]) + 1;
            (BLINK_PERIOD * steps, BLINK_STEP * dimming * steps)
        }
    }

    fn is_lit(&self, output: usize) -> bool {
        let bright = self.ticks % BRIGHTNESS_PERIOD < self.brightness(output);
        match self.mode(output) {
            OFF => false,
            ON => true,
            INDIVIDUAL => bright,
            _ => {
                let (period, on) = self.group();
                bright && self.ticks % period < on
            }
        }
    }

    /// Lit ticks among 0 .. x-1, by whole periods. A group's period and its
    /// lit part are whole periods of the brightness.
    fn lit_below(&self, output: usize, x: u64) -> u64 {
        let bright = |x| ticks_below(x, BRIGHTNESS_PERIOD, self.brightness(output));
        match self.mode(output) {
            OFF => 0,
            ON => x,
            INDIVIDUAL => bright(x),
            _ => {
                let (period, on) = self.group();
                x / period * bright(on) + bright((x % period).min(on))
            }
        }
    }

    pub fn lit_ticks(&self, output: usize, ticks: u64) -> u64 {
        if self.is_awake() {
            self.lit_below(output, self.ticks + ticks) - self.lit_below(output, self.ticks)
        } else if self.is_lit(output) {
            ticks
        } else {
            0
        }
    }

    pub fn pin(&self, output: usize) -> u64 {
        driver_pin(self.mode2(), self.oe, self.is_lit(output))
    }
}
