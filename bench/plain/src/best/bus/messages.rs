//! START, STOP and the bytes between them.

use super::{positions, Board, Bus, Stage};
use crate::best::driver::Effect;
use crate::chips::{
    OUT_OF_RANGE, OUT_OF_TURN, RESET_CALL, RESET_CALL_READ, RESET_FIRST, RESET_SECOND,
};
use crate::Answer;

impl<const DEFER: bool> Bus<DEFER> {
    #[inline(always)]
    pub(super) fn start(&mut self, elapsed: u64) -> Answer {
        self.pass(elapsed);
        self.selected = 0;
        self.stage = Stage::Address;
        Ok(0)
    }

    #[inline(always)]
    pub(super) fn stop(&mut self, elapsed: u64) -> Answer {
        if self.stage == Stage::Idle {
            return Err(OUT_OF_TURN);
        }
        self.pass(elapsed);
        if self.stage == Stage::Whole {
            positions(self.selected).for_each(|position| self.reset_board(position));
        }
        let committing = self.pending & self.awake;
        self.pending &= !committing;
        for position in positions(committing) {
            if let Board::Driver(driver) = &mut self.boards[position] {
                driver.commit(self.clock);
            }
        }
        self.selected = 0;
        self.stage = Stage::Idle;
        Ok(0)
    }

    pub(super) fn takes_put(&self) -> bool {
        !matches!(self.stage, Stage::Idle | Stage::Read | Stage::Ended)
    }

    /// The value is the set of those that acknowledge, who stay selected.
    #[inline(always)]
    pub(super) fn put(&mut self, elapsed: u64, byte: u64) -> Answer {
        if !self.takes_put() {
            return Err(OUT_OF_TURN);
        }
        let Ok(byte) = u8::try_from(byte) else {
            return Err(OUT_OF_RANGE);
        };
        self.pass(elapsed);
        match self.stage {
            Stage::Data => self.write(byte),
            Stage::Address => self.address(byte),
            Stage::Control => self.control(byte),
            _ => self.reset_call(byte),
        }
        Ok(self.selected.into())
    }

    fn address(&mut self, byte: u8) {
        (self.stage, self.selected) = match byte {
            RESET_CALL => (Stage::Called, self.drivers),
            RESET_CALL_READ => (Stage::Read, 0),
            _ if byte & 1 == 0 => (Stage::Control, self.answering[byte as usize >> 1]),
            _ => (Stage::Read, self.answering[byte as usize >> 1]),
        };
    }

    fn control(&mut self, byte: u8) {
        for position in positions(self.selected) {
            let legal = match &mut self.boards[position] {
                Board::Driver(driver) => driver.set_control(byte),
                Board::Blinker(blinker) => blinker.chip_mut().set_control(byte),
            };
            if !legal {
                self.selected &= !(1 << position);
            }
        }
        self.stage = Stage::Data;
    }

    fn write(&mut self, byte: u8) {
        for position in positions(self.selected) {
            match &mut self.boards[position] {
                Board::Blinker(blinker) => blinker.write(byte),
                Board::Driver(driver) => match driver.write(byte, self.clock) {
                    Effect::Nothing => (),
                    Effect::Pending => self.pending |= 1 << position,
                    Effect::Mode => self.look_at(position),
                },
            }
        }
    }

    fn reset_call(&mut self, byte: u8) {
        self.stage = match (self.stage, byte) {
            (Stage::Called, RESET_FIRST) => Stage::Half,
            (Stage::Half, RESET_SECOND) => Stage::Whole,
            _ => {
                self.selected = 0;
                Stage::Data
            }
        };
    }

    #[inline(always)]
    pub(super) fn get(&mut self, elapsed: u64, ack: u64) -> Answer {
        if self.stage != Stage::Read {
            return Err(OUT_OF_TURN);
        }
        if ack > 1 {
            return Err(OUT_OF_RANGE);
        }
        self.pass(elapsed);
        let mut value = 255;
        for position in positions(self.selected) {
            value &= match &mut self.boards[position] {
                Board::Driver(driver) => driver.read(),
                Board::Blinker(blinker) => blinker.chip_mut().read(),
            };
        }
        if ack == 0 {
            self.selected = 0;
            self.stage = Stage::Ended;
        }
        Ok(value.into())
    }
}
