//! The bus. Sets of boards are bytes, bit i for the board at position i, so
//! that an event goes to those alone that it can change.

mod boards;
mod messages;

use super::blinker::Blinker;
use super::driver::Driver;
use crate::chips::{MAX_BOARDS, MAX_OUTPUTS, NO_BOARD, OUT_OF_TURN, PAST_LIMIT};
use crate::event::Event;
use crate::{Answer, Row};

/// How far the message is, which is the same for all boards that are selected.
#[derive(Clone, Copy, PartialEq, Eq)]
enum Stage {
    Idle,
    /// START seen, the address is due.
    Address,
    /// A write, the control byte is due.
    Control,
    Data,
    /// The software reset call, then with its first byte, then with both.
    Called,
    Half,
    Whole,
    Read,
    /// A read after a get with ack 0.
    Ended,
}

/// There are at most eight, and the large ones are looked at most.
#[allow(clippy::large_enum_variant)]
enum Board<const DEFER: bool> {
    Driver(Driver<DEFER>),
    Blinker(Blinker<DEFER>),
}

/// The positions in a set.
fn positions(mut set: u8) -> impl Iterator<Item = usize> {
    std::iter::from_fn(move || {
        let position = set.trailing_zeros() as usize;
        set &= set.wrapping_sub(1);
        (position < MAX_BOARDS).then_some(position)
    })
}

pub struct Bus<const DEFER: bool> {
    stage: Stage,
    /// Who listens, talks or is in the reset call.
    selected: u8,
    drivers: u8,
    awake: u8,
    /// Drivers with registers written that are not in effect.
    pending: u8,
    /// The time of all accepted lines.
    clock: u64,
    /// Every driver can wait at least so long.
    room: u64,
    /// By 7-bit address, who answers it.
    answering: [u8; 128],
    boards: Vec<Board<DEFER>>,
}

impl<const DEFER: bool> Bus<DEFER> {
    pub fn new() -> Self {
        Bus {
            stage: Stage::Idle,
            selected: 0,
            drivers: 0,
            awake: 0,
            pending: 0,
            clock: 0,
            room: u64::MAX,
            answering: [0; 128],
            boards: Vec::with_capacity(MAX_BOARDS),
        }
    }

    /// Lets the time pass for every driver, then carries out the event; or
    /// changes nothing and gives the least number that refuses them.
    #[inline(always)]
    pub fn step(&mut self, elapsed: u64, event: Event) -> Answer {
        if elapsed > self.room && !self.finds_room(elapsed) {
            return Err(self.refused_by_time(event));
        }
        match event {
            Event::Start => self.start(elapsed),
            Event::Stop => self.stop(elapsed),
            Event::Put { byte } => self.put(elapsed, byte),
            Event::Get { ack } => self.get(elapsed, ack),
            Event::Wait { board, ticks } => self.wait(elapsed, board, ticks),
            Event::Lit {
                board,
                output,
                ticks,
            } => self.lit(elapsed, board, output, ticks),
            Event::Pin { board, output } => self.pin(elapsed, board, output),
            _ => self.rare(elapsed, event),
        }
    }

    #[inline(never)]
    fn rare(&mut self, elapsed: u64, event: Event) -> Answer {
        match event {
            Event::Add { chip, address } => self.add(elapsed, chip, address),
            Event::Oe { board, level } => self.oe(elapsed, board, level),
            Event::Ext { board, level } => self.ext(elapsed, board, level),
            Event::Reset { board } => self.reset(elapsed, board),
            _ => unreachable!("the others are frequent"),
        }
    }

    /// Looks anew how long every driver can wait.
    #[cold]
    fn finds_room(&mut self, elapsed: u64) -> bool {
        let room = |board: &Board<DEFER>| match board {
            Board::Driver(driver) => driver.room(self.clock),
            Board::Blinker(_) => u64::MAX,
        };
        self.room = self.boards.iter().map(room).min().unwrap_or(u64::MAX);
        elapsed <= self.room
    }

    /// The number of a line whose time does not fit: its own where that is
    /// less.
    #[cold]
    fn refused_by_time(&self, event: Event) -> u64 {
        let own = match event {
            Event::Add { chip, address } => self.ensure_add(chip, address).err(),
            Event::Start => None,
            Event::Stop => (self.stage == Stage::Idle).then_some(OUT_OF_TURN),
            Event::Put { .. } => (!self.takes_put()).then_some(OUT_OF_TURN),
            Event::Get { .. } => (self.stage != Stage::Read).then_some(OUT_OF_TURN),
            Event::Wait { board, .. }
            | Event::Oe { board, .. }
            | Event::Ext { board, .. }
            | Event::Reset { board }
            | Event::Lit { board, .. }
            | Event::Pin { board, .. } => self.board(board).err(),
        };
        own.unwrap_or(PAST_LIMIT)
    }

    #[inline(always)]
    fn pass(&mut self, elapsed: u64) {
        self.clock = self.clock.wrapping_add(elapsed);
        self.room -= elapsed;
        if !DEFER {
            for board in &mut self.boards {
                if let Board::Driver(driver) = board {
                    driver.settle(self.clock);
                }
            }
        }
    }

    fn board(&self, position: u64) -> Result<&Board<DEFER>, u64> {
        self.boards.get(position as usize).ok_or(NO_BOARD)
    }

    /// Sees anew whether a board is awake and what it answers.
    #[inline(never)]
    fn look_at(&mut self, position: usize) {
        let bit = 1 << position;
        self.answering.iter_mut().for_each(|set| *set &= !bit);
        self.awake &= !bit;
        match &self.boards[position] {
            Board::Blinker(blinker) => self.answering[blinker.chip().address() as usize] |= bit,
            Board::Driver(driver) => {
                for address in driver.addresses() {
                    self.answering[address as usize] |= bit;
                }
                if driver.is_awake() {
                    self.awake |= bit;
                }
                self.room = self.room.min(driver.room(self.clock));
            }
        }
    }

    fn reset_board(&mut self, position: usize) {
        match &mut self.boards[position] {
            Board::Driver(driver) => driver.reset(self.clock),
            Board::Blinker(blinker) => blinker.reset(),
        }
        let bit = 1 << position;
        self.selected &= !bit;
        self.pending &= !bit;
        self.look_at(position);
    }

    pub fn totals(&mut self) -> Row {
        let mut row = [0; 256];
        let rows = row.chunks_exact_mut(2 * MAX_OUTPUTS);
        for (board, row) in self.boards.iter_mut().zip(rows) {
            let (lit, unlit) = match board {
                Board::Driver(driver) => driver.totals(self.clock),
                Board::Blinker(blinker) => blinker.totals(),
            };
            for (output, (lit, unlit)) in lit.iter().zip(unlit).enumerate() {
                row[2 * output] = *lit;
                row[2 * output + 1] = *unlit;
            }
        }
        row
    }
}
