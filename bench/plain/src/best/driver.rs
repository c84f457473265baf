//! PCA9635 and PCA9634.

mod lamps;

use crate::chips::{
    driver_pin, DriverMap, ADDRESS_WRITABLE, CONTROL_RESET, DMBLNK, MAX_COUNT, MAX_OUTPUTS,
    MAX_TOTAL, MODE1, MODE1_WRITABLE, MODE2, MODE2_WRITABLE, OCH, PCA9634, PCA9635, REGISTERS,
    SLEEP, SUB1,
};
use lamps::{Lamps, EIGHT};

/// By control byte the one after a byte read or written.
type Controls = [u8; 256];

static CONTROLS_9635: Controls = next_controls(&PCA9635);
static CONTROLS_9634: Controls = next_controls(&PCA9634);

const fn next_controls(map: &DriverMap) -> Controls {
    let mut next = [0; 256];
    let mut control = 0;
    while control < 256 {
        next[control] = map.next_control(control as u8);
        control += 1;
    }
    next
}

/// What a written byte changes for the bus.
pub enum Effect {
    Nothing,
    /// A register is written that is not in effect.
    Pending,
    /// Sleep, or which addresses are answered, may be another.
    Mode,
}

pub struct Driver<const DEFER: bool> {
    map: &'static DriverMap,
    next: &'static Controls,
    address: u8,
    control: u8,
    pub oe: bool,
    /// As written, by number.
    written: [u8; REGISTERS],
    /// As in effect; PWM0 through LEDOUT alone are looked at.
    in_effect: [u8; REGISTERS],
    /// What the bus's clock was when the counts below were right. It is set
    /// back for a wait of the driver's own.
    since: u64,
    ticks: u64,
    waited: u64,
    /// What the lamps go by; kept only where it is used at every line.
    lamps: Lamps,
    /// By output, eight and eight.
    lit: [[u64; EIGHT]; 2],
    unlit: [[u64; EIGHT]; 2],
}

impl<const DEFER: bool> Driver<DEFER> {
    pub fn new(map: &'static DriverMap, address: u8, clock: u64) -> Self {
        let registers = map.reset_registers();
        Driver {
            map,
            next: match map.outputs {
                MAX_OUTPUTS => &CONTROLS_9635,
                _ => &CONTROLS_9634,
            },
            address,
            control: CONTROL_RESET,
            oe: false,
            written: registers,
            in_effect: registers,
            since: clock,
            ticks: 0,
            waited: 0,
            lamps: Lamps::default(),
            lit: [[0; EIGHT]; 2],
            unlit: [[0; EIGHT]; 2],
        }
    }

    pub fn reset(&mut self, clock: u64) {
        self.settle(clock);
        *self = Driver {
            oe: self.oe,
            waited: self.waited,
            lit: self.lit,
            unlit: self.unlit,
            ..Driver::new(self.map, self.address, clock)
        };
    }

    fn mode2(&self) -> u8 {
        self.written[MODE2 as usize]
    }

    pub fn is_awake(&self) -> bool {
        self.written[MODE1 as usize] & SLEEP == 0
    }

    pub fn outputs(&self) -> u64 {
        self.map.outputs as u64
    }

    /// The tick count at a clock.
    fn ticks_at(&self, clock: u64) -> u64 {
        match self.is_awake() {
            true => self.ticks + clock.wrapping_sub(self.since),
            false => self.ticks,
        }
    }

    /// How long the driver can still wait.
    pub fn room(&self, clock: u64) -> u64 {
        let totals = MAX_TOTAL - self.waited - clock.wrapping_sub(self.since);
        match self.is_awake() {
            true => totals.min(MAX_COUNT - self.ticks_at(clock)),
            false => totals,
        }
    }

    /// Whether lit ticks are counted that far.
    pub fn can_count(&self, clock: u64, ticks: u64) -> bool {
        match self.is_awake() {
            true => ticks <= MAX_COUNT - self.ticks_at(clock),
            false => ticks <= MAX_COUNT,
        }
    }

    pub fn wait(&mut self, clock: u64, ticks: u64) {
        self.since = self.since.wrapping_sub(ticks);
        if !DEFER {
            self.settle(clock);
        }
    }

    /// Its own address, then those of the shared ones that MODE1 lets in.
    pub fn addresses(&self) -> impl Iterator<Item = u8> + '_ {
        let shared = (0..4).filter_map(|index| {
            let answered = self.written[MODE1 as usize] & (SUB1 >> index) != 0;
            let register = self.map.subadr1 as usize + index;
            answered.then_some(self.written[register] >> 1)
        });
        std::iter::once(self.address).chain(shared)
    }

    /// Takes a control byte if it is legal.
    pub fn set_control(&mut self, byte: u8) -> bool {
        let legal = self.map.is_control(byte);
        if legal {
            self.control = byte;
        }
        legal
    }

    fn move_pointer(&mut self) {
        self.control = self.next[self.control as usize];
    }

    pub fn read(&mut self) -> u8 {
        let register = self.control & 0x1F;
        let byte = self.written[register as usize];
        let byte = match register {
            MODE1 => self.control & 0xE0 | byte,
            _ => byte,
        };
        self.move_pointer();
        byte
    }

    pub fn write(&mut self, byte: u8, clock: u64) -> Effect {
        let register = self.control & 0x1F;
        self.move_pointer();
        if register == MODE1 {
            self.write_mode1(byte & MODE1_WRITABLE, clock);
            Effect::Mode
        } else if register == MODE2 {
            self.write_mode2(byte & MODE2_WRITABLE, clock);
            Effect::Nothing
        } else if register >= self.map.subadr1 {
            self.written[register as usize] = byte & ADDRESS_WRITABLE;
            Effect::Mode
        } else {
            self.write_lamp(register as usize, byte, clock)
        }
    }

    /// Changes what the lamps go by, once their time until now is counted.
    fn change(&mut self, clock: u64, change: impl FnOnce(&mut Self)) {
        self.settle(clock);
        change(self);
        if !DEFER {
            self.lamps = self.lamps_now();
        }
    }

    fn write_mode1(&mut self, byte: u8, clock: u64) {
        let place = MODE1 as usize;
        if (self.written[place] ^ byte) & SLEEP == 0 {
            self.written[place] = byte;
            return;
        }
        self.change(clock, |driver| {
            driver.written[place] = byte;
            if driver.is_awake() {
                driver.ticks = 0;
            }
        });
    }

    fn write_mode2(&mut self, byte: u8, clock: u64) {
        if (self.mode2() ^ byte) & DMBLNK == 0 {
            self.written[MODE2 as usize] = byte;
        } else {
            self.change(clock, |driver| driver.written[MODE2 as usize] = byte);
        }
    }

    fn write_lamp(&mut self, place: usize, byte: u8, clock: u64) -> Effect {
        self.written[place] = byte;
        if self.in_effect[place] == byte {
            return Effect::Nothing;
        }
        if self.is_awake() && self.mode2() & OCH != 0 {
            self.change(clock, |driver| driver.in_effect[place] = byte);
            return Effect::Nothing;
        }
        Effect::Pending
    }

    /// Puts what is written into effect.
    pub fn commit(&mut self, clock: u64) {
        self.change(clock, |driver| driver.in_effect = driver.written);
    }

    /// The lit and unlit ticks of each output.
    pub fn totals(&mut self, clock: u64) -> (&[u64], &[u64]) {
        if DEFER {
            self.settle(clock);
        }
        let outputs = ..self.map.outputs;
        let [lit, unlit] = [&self.lit, &self.unlit].map(|eights| eights.as_flattened());
        (&lit[outputs], &unlit[outputs])
    }

    pub fn pin(&self, clock: u64, output: usize) -> u64 {
        let is_lit = self.is_lit(output, self.ticks_at(clock));
        driver_pin(self.mode2(), self.oe, is_lit)
    }
}
