//! A board: its chip, its part in the open message, its outputs' totals.

use super::driver::Driver;
use crate::blinker::Blinker;
use crate::chips::{
    ensure_chip, BLINKER_OUTPUTS, MAX_COUNT, MAX_OUTPUTS, MAX_TOTAL, PCA9634, PCA9635, RESET_CALL,
    RESET_CALL_READ, RESET_FIRST, RESET_SECOND, WRONG_SORT,
};

#[derive(Clone, Copy, PartialEq, Eq)]
enum Stage {
    /// Not selected, or deaf until the next START.
    None,
    /// Selected for a write, the control byte is due.
    Control,
    Data,
    Talk,
    /// In the software reset call, with as many right bytes taken.
    ResetCall(u8),
}

pub enum Chip {
    Driver(Driver),
    Blinker(Blinker),
}

#[derive(Clone, Copy, Default)]
pub struct Totals {
    pub lit: u64,
    pub unlit: u64,
}

pub struct Board {
    stage: Stage,
    chip: Chip,
    /// By output.
    pub totals: [Totals; MAX_OUTPUTS],
}

impl Board {
    /// A fresh board, or the number that refuses it.
    pub fn new(chip: u64, address: u64) -> Result<Board, u64> {
        ensure_chip(chip, address)?;
        let address = address as u8;
        let chip = match chip {
            9635 => Chip::Driver(Driver::new(&PCA9635, address)),
            9634 => Chip::Driver(Driver::new(&PCA9634, address)),
            9531 => Chip::Blinker(Blinker::new(false, address)),
            _ => Chip::Blinker(Blinker::new(true, address)),
        };
        Ok(Board {
            stage: Stage::None,
            chip,
            totals: [Totals::default(); MAX_OUTPUTS],
        })
    }

    pub fn is_driver(&self) -> bool {
        matches!(self.chip, Chip::Driver(_))
    }

    pub fn driver(&mut self) -> Result<&mut Driver, u64> {
        match &mut self.chip {
            Chip::Driver(driver) => Ok(driver),
            Chip::Blinker(_) => Err(WRONG_SORT),
        }
    }

    pub fn blinker(&mut self) -> Result<&mut Blinker, u64> {
        match &mut self.chip {
            Chip::Driver(_) => Err(WRONG_SORT),
            Chip::Blinker(blinker) => Ok(blinker),
        }
    }

    pub fn outputs(&self) -> usize {
        match &self.chip {
            Chip::Driver(driver) => driver.map.outputs,
            Chip::Blinker(_) => BLINKER_OUTPUTS,
        }
    }

    /// The count, where it moves.
    fn running_count(&self) -> Option<u64> {
        match &self.chip {
            Chip::Driver(driver) => driver.is_awake().then_some(driver.ticks),
            Chip::Blinker(blinker) => Some(blinker.steps),
        }
    }

    /// Whether count and totals stay within their limits. All outputs have
    /// waited as long as the first.
    pub fn has_room_for(&self, ticks: u64) -> bool {
        let waited = self.totals[0].lit + self.totals[0].unlit;
        self.running_count()
            .is_none_or(|count| count + ticks <= MAX_COUNT)
            && waited + ticks <= MAX_TOTAL
    }

    /// Whether a wait is accepted once the line's time has passed.
    pub fn can_wait(&self, elapsed: u64, ticks: u64) -> bool {
        ticks <= MAX_COUNT && self.has_room_for(ticks + self.own_share(elapsed))
    }

    /// Whether lit ticks are counted that far once the line's time has passed.
    pub fn can_count(&self, elapsed: u64, ticks: u64) -> bool {
        let count = self
            .running_count()
            .map_or(0, |count| count + self.own_share(elapsed));
        count + ticks <= MAX_COUNT
    }

    /// A line's time goes to drivers alone.
    fn own_share(&self, elapsed: u64) -> u64 {
        match self.chip {
            Chip::Driver(_) => elapsed,
            Chip::Blinker(_) => 0,
        }
    }

    pub fn wait(&mut self, ticks: u64) {
        for output in 0..self.outputs() {
            let lit = self.lit_ticks(output, ticks);
            self.totals[output].lit += lit;
            self.totals[output].unlit += ticks - lit;
        }
        match &mut self.chip {
            Chip::Driver(driver) => driver.advance(ticks),
            Chip::Blinker(blinker) => blinker.steps += ticks,
        }
    }

    pub fn lit_ticks(&self, output: usize, ticks: u64) -> u64 {
        match &self.chip {
            Chip::Driver(driver) => driver.lit_ticks(output, ticks),
            Chip::Blinker(blinker) => blinker.lit_steps(output, ticks),
        }
    }

    pub fn pin(&self, output: usize) -> u64 {
        match &self.chip {
            Chip::Driver(driver) => driver.pin(output),
            Chip::Blinker(blinker) => blinker.pin(output),
        }
    }

    pub fn deselect(&mut self) {
        self.stage = Stage::None;
    }

    pub fn reset(&mut self) {
        self.stage = Stage::None;
        match &mut self.chip {
            Chip::Driver(driver) => driver.reset(),
            Chip::Blinker(blinker) => blinker.reset(),
        }
    }

    /// Takes the byte after START; gives the acknowledge.
    pub fn take_address(&mut self, byte: u8) -> bool {
        self.stage = match byte {
            RESET_CALL if self.is_driver() => Stage::ResetCall(0),
            RESET_CALL | RESET_CALL_READ => Stage::None,
            _ if !self.answers(byte >> 1) => Stage::None,
            _ if byte & 1 == 0 => Stage::Control,
            _ => Stage::Talk,
        };
        self.stage != Stage::None
    }

    fn answers(&self, address: u8) -> bool {
        match &self.chip {
            Chip::Driver(driver) => driver.answers(address),
            Chip::Blinker(blinker) => blinker.address() == address,
        }
    }

    /// Takes a later byte of a write; gives the acknowledge.
    pub fn take_byte(&mut self, byte: u8) -> bool {
        match (self.stage, byte) {
            (Stage::Control, _) if self.set_control(byte) => self.stage = Stage::Data,
            (Stage::Data, _) => self.write(byte),
            (Stage::ResetCall(0), RESET_FIRST) => self.stage = Stage::ResetCall(1),
            (Stage::ResetCall(1), RESET_SECOND) => self.stage = Stage::ResetCall(2),
            _ => self.stage = Stage::None,
        }
        self.stage != Stage::None
    }

    fn set_control(&mut self, byte: u8) -> bool {
        match &mut self.chip {
            Chip::Driver(driver) => driver.set_control(byte),
            Chip::Blinker(blinker) => blinker.set_control(byte),
        }
    }

    fn write(&mut self, byte: u8) {
        match &mut self.chip {
            Chip::Driver(driver) => driver.write(byte),
            Chip::Blinker(blinker) => blinker.write(byte),
        }
    }

    /// The byte that the board sends; one that does not talk leaves the line
    /// high.
    pub fn talk(&mut self) -> u8 {
        match &mut self.chip {
            _ if self.stage != Stage::Talk => 255,
            Chip::Driver(driver) => driver.read(),
            Chip::Blinker(blinker) => blinker.read(),
        }
    }

    pub fn stop(&mut self) {
        if let Chip::Driver(driver) = &mut self.chip {
            if self.stage == Stage::ResetCall(2) {
                driver.reset();
            } else {
                driver.stop();
            }
        }
        self.stage = Stage::None;
    }
}
