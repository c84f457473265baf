//! The bus: what each event refuses, then what it does.
//!
//! An event's refusals are tested in the order of their numbers, the limit of
//! the time among them, and before anything changes. Then the time passes, and
//! the event happens.

use super::board::Board;
use super::ensure;
use crate::chips::{
    MAX_BOARDS, MAX_OUTPUTS, NO_BOARD, NO_OUTPUT, OUT_OF_RANGE, OUT_OF_TURN, PAST_LIMIT,
};
use crate::event::Event;
use crate::{Answer, Row};

/// How far the message is.
#[derive(Clone, Copy, PartialEq, Eq, Default)]
enum Message {
    #[default]
    Idle,
    /// START seen, the address is due.
    Address,
    Write,
    Read,
    /// A read after a get with ack 0.
    Ended,
}

#[derive(Default)]
pub struct Bus {
    message: Message,
    boards: Vec<Board>,
}

impl Bus {
    /// Lets the time pass for every driver, then carries out the event; or
    /// changes nothing and gives the least number that refuses them.
    pub fn step(&mut self, elapsed: u64, event: Event) -> Answer {
        match event {
            Event::Add { chip, address } => self.add(elapsed, chip, address),
            Event::Start => self.start(elapsed),
            Event::Stop => self.stop(elapsed),
            Event::Put { byte } => self.put(elapsed, byte),
            Event::Get { ack } => self.get(elapsed, ack),
            Event::Wait { board, ticks } => self.wait(elapsed, board, ticks),
            Event::Oe { board, level } => self.oe(elapsed, board, level),
            Event::Ext { board, level } => self.ext(elapsed, board, level),
            Event::Reset { board } => self.reset(elapsed, board),
            Event::Lit {
                board,
                output,
                ticks,
            } => self.lit(elapsed, board, output, ticks),
            Event::Pin { board, output } => self.pin(elapsed, board, output),
        }
    }

    pub fn totals(&self) -> Row {
        let mut row = [0; 256];
        for (position, board) in self.boards.iter().enumerate() {
            for (output, totals) in board.totals.iter().enumerate() {
                let place = 2 * (MAX_OUTPUTS * position + output);
                row[place] = totals.lit;
                row[place + 1] = totals.unlit;
            }
        }
        row
    }

    fn ensure_time_fits(&self, elapsed: u64) -> Result<(), u64> {
        let fits = |board: &Board| !board.is_driver() || board.has_room_for(elapsed);
        ensure(self.boards.iter().all(fits), PAST_LIMIT)
    }

    fn pass(&mut self, elapsed: u64) {
        for board in &mut self.boards {
            if board.is_driver() {
                board.wait(elapsed);
            }
        }
    }

    /// The place of a board in the vector.
    fn place(&self, position: u64) -> Result<usize, u64> {
        ensure(position < self.boards.len() as u64, NO_BOARD)?;
        Ok(position as usize)
    }

    fn add(&mut self, elapsed: u64, chip: u64, address: u64) -> Answer {
        let board = Board::new(chip, address)?;
        ensure(self.boards.len() < MAX_BOARDS, NO_BOARD)?;
        ensure(self.message == Message::Idle, OUT_OF_TURN)?;
        self.ensure_time_fits(elapsed)?;
        self.pass(elapsed);
        self.boards.push(board);
        Ok(self.boards.len() as u64 - 1)
    }

    fn start(&mut self, elapsed: u64) -> Answer {
        self.ensure_time_fits(elapsed)?;
        self.pass(elapsed);
        for board in &mut self.boards {
            board.deselect();
        }
        self.message = Message::Address;
        Ok(0)
    }

    fn stop(&mut self, elapsed: u64) -> Answer {
        ensure(self.message != Message::Idle, OUT_OF_TURN)?;
        self.ensure_time_fits(elapsed)?;
        self.pass(elapsed);
        for board in &mut self.boards {
            board.stop();
        }
        self.message = Message::Idle;
        Ok(0)
    }

    /// The value has a bit for each board that acknowledges.
    fn put(&mut self, elapsed: u64, byte: u64) -> Answer {
        let in_turn = matches!(self.message, Message::Address | Message::Write);
        ensure(in_turn, OUT_OF_TURN)?;
        self.ensure_time_fits(elapsed)?;
        let byte = u8::try_from(byte).map_err(|_| OUT_OF_RANGE)?;
        self.pass(elapsed);
        let is_address = self.message == Message::Address;
        if is_address {
            self.message = match byte & 1 {
                0 => Message::Write,
                _ => Message::Read,
            };
        }
        let mut acknowledged = 0;
        for (position, board) in self.boards.iter_mut().enumerate() {
            let acknowledges = match is_address {
                true => board.take_address(byte),
                false => board.take_byte(byte),
            };
            acknowledged |= u64::from(acknowledges) << position;
        }
        Ok(acknowledged)
    }

    fn get(&mut self, elapsed: u64, ack: u64) -> Answer {
        ensure(self.message == Message::Read, OUT_OF_TURN)?;
        self.ensure_time_fits(elapsed)?;
        ensure(ack <= 1, OUT_OF_RANGE)?;
        self.pass(elapsed);
        let byte = self
            .boards
            .iter_mut()
            .fold(255, |all, board| all & board.talk());
        if ack == 0 {
            for board in &mut self.boards {
                board.deselect();
            }
            self.message = Message::Ended;
        }
        Ok(byte.into())
    }

    fn wait(&mut self, elapsed: u64, position: u64, ticks: u64) -> Answer {
        let place = self.place(position)?;
        self.ensure_time_fits(elapsed)?;
        ensure(self.boards[place].can_wait(elapsed, ticks), PAST_LIMIT)?;
        self.pass(elapsed);
        self.boards[place].wait(ticks);
        Ok(0)
    }

    fn oe(&mut self, elapsed: u64, position: u64, level: u64) -> Answer {
        let place = self.place(position)?;
        self.ensure_time_fits(elapsed)?;
        ensure(level <= 1, OUT_OF_RANGE)?;
        self.boards[place].driver()?;
        self.pass(elapsed);
        self.boards[place].driver()?.oe = level == 1;
        Ok(0)
    }

    fn ext(&mut self, elapsed: u64, position: u64, level: u64) -> Answer {
        let place = self.place(position)?;
        self.ensure_time_fits(elapsed)?;
        let level = u8::try_from(level).map_err(|_| OUT_OF_RANGE)?;
        self.boards[place].blinker()?;
        self.pass(elapsed);
        self.boards[place].blinker()?.outside = level;
        Ok(0)
    }

    fn reset(&mut self, elapsed: u64, position: u64) -> Answer {
        let place = self.place(position)?;
        self.ensure_time_fits(elapsed)?;
        self.pass(elapsed);
        self.boards[place].reset();
        Ok(0)
    }

    fn lit(&mut self, elapsed: u64, position: u64, output: u64, ticks: u64) -> Answer {
        let place = self.place(position)?;
        self.ensure_time_fits(elapsed)?;
        let board = &self.boards[place];
        ensure(board.can_count(elapsed, ticks), PAST_LIMIT)?;
        ensure(output < board.outputs() as u64, NO_OUTPUT)?;
        self.pass(elapsed);
        Ok(self.boards[place].lit_ticks(output as usize, ticks))
    }

    fn pin(&mut self, elapsed: u64, position: u64, output: u64) -> Answer {
        let place = self.place(position)?;
        self.ensure_time_fits(elapsed)?;
        ensure(output < self.boards[place].outputs() as u64, NO_OUTPUT)?;
        self.pass(elapsed);
        Ok(self.boards[place].pin(output as usize))
    }
}
