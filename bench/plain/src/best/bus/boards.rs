//! Events at one board, and adding one.

use super::{Board, Bus, Stage};
use crate::best::blinker::Blinker;
use crate::best::driver::Driver;
use crate::blinker::Blinker as Chip;
use crate::chips::{
    ensure_chip, BLINKER_OUTPUTS, MAX_BOARDS, MAX_COUNT, NO_BOARD, NO_OUTPUT, OUT_OF_RANGE,
    OUT_OF_TURN, PAST_LIMIT, PCA9634, PCA9635, WRONG_SORT,
};
use crate::Answer;

impl<const DEFER: bool> Bus<DEFER> {
    #[inline(always)]
    pub(super) fn wait(&mut self, elapsed: u64, position: u64, ticks: u64) -> Answer {
        let clock = self.clock;
        let fits = match self.board(position)? {
            Board::Driver(driver) => ticks <= MAX_COUNT && elapsed + ticks <= driver.room(clock),
            Board::Blinker(blinker) => blinker.can_wait(ticks),
        };
        if !fits {
            return Err(PAST_LIMIT);
        }
        self.pass(elapsed);
        match &mut self.boards[position as usize] {
            Board::Driver(driver) => {
                driver.wait(self.clock, ticks);
                self.room = self.room.min(driver.room(self.clock));
            }
            Board::Blinker(blinker) => blinker.wait(ticks),
        }
        Ok(0)
    }

    #[inline(always)]
    pub(super) fn lit(&mut self, elapsed: u64, position: u64, output: u64, ticks: u64) -> Answer {
        let now = self.clock.wrapping_add(elapsed);
        let place = output as usize;
        let value = match self.board(position)? {
            Board::Driver(driver) if !driver.can_count(now, ticks) => return Err(PAST_LIMIT),
            Board::Driver(driver) if output >= driver.outputs() => return Err(NO_OUTPUT),
            Board::Driver(driver) => driver.lit_ticks(now, place, ticks),
            Board::Blinker(blinker) if !blinker.can_count(ticks) => return Err(PAST_LIMIT),
            Board::Blinker(_) if place >= BLINKER_OUTPUTS => return Err(NO_OUTPUT),
            Board::Blinker(blinker) => blinker.chip().lit_steps(place, ticks),
        };
        self.pass(elapsed);
        Ok(value)
    }

    #[inline(always)]
    pub(super) fn pin(&mut self, elapsed: u64, position: u64, output: u64) -> Answer {
        let now = self.clock.wrapping_add(elapsed);
        let place = output as usize;
        let value = match self.board(position)? {
            Board::Driver(driver) if output >= driver.outputs() => return Err(NO_OUTPUT),
            Board::Driver(driver) => driver.pin(now, place),
            Board::Blinker(_) if place >= BLINKER_OUTPUTS => return Err(NO_OUTPUT),
            Board::Blinker(blinker) => blinker.chip().pin(place),
        };
        self.pass(elapsed);
        Ok(value)
    }

    pub(super) fn ensure_add(&self, chip: u64, address: u64) -> Result<(), u64> {
        ensure_chip(chip, address)?;
        match self.boards.len() {
            MAX_BOARDS => Err(NO_BOARD),
            _ if self.stage != Stage::Idle => Err(OUT_OF_TURN),
            _ => Ok(()),
        }
    }

    pub(super) fn add(&mut self, elapsed: u64, chip: u64, address: u64) -> Answer {
        self.ensure_add(chip, address)?;
        self.pass(elapsed);
        let position = self.boards.len();
        let address = address as u8;
        let driver = |map| Board::Driver(Driver::new(map, address, self.clock));
        let blinker = |inverse| Board::Blinker(Blinker::new(Chip::new(inverse, address)));
        self.boards.push(match chip {
            9635 => driver(&PCA9635),
            9634 => driver(&PCA9634),
            9531 => blinker(false),
            _ => blinker(true),
        });
        if let Board::Driver(_) = self.boards[position] {
            self.drivers |= 1 << position;
        }
        self.look_at(position);
        Ok(position as u64)
    }

    pub(super) fn oe(&mut self, elapsed: u64, position: u64, level: u64) -> Answer {
        let board = self.boards.get_mut(position as usize).ok_or(NO_BOARD)?;
        match board {
            _ if level > 1 => return Err(OUT_OF_RANGE),
            Board::Driver(driver) => driver.oe = level == 1,
            Board::Blinker(_) => return Err(WRONG_SORT),
        }
        self.pass(elapsed);
        Ok(0)
    }

    pub(super) fn ext(&mut self, elapsed: u64, position: u64, level: u64) -> Answer {
        let board = self.boards.get_mut(position as usize).ok_or(NO_BOARD)?;
        match board {
            _ if level > 255 => return Err(OUT_OF_RANGE),
            Board::Driver(_) => return Err(WRONG_SORT),
            Board::Blinker(blinker) => blinker.chip_mut().outside = level as u8,
        }
        self.pass(elapsed);
        Ok(0)
    }

    pub(super) fn reset(&mut self, elapsed: u64, position: u64) -> Answer {
        self.board(position)?;
        self.pass(elapsed);
        self.reset_board(position as usize);
        Ok(0)
    }
}
