//! A blinker with its outputs' totals.

use crate::blinker::Blinker as Chip;
use crate::chips::{BLINKER_OUTPUTS, MAX_COUNT, MAX_TOTAL};

pub struct Blinker<const DEFER: bool> {
    chip: Chip,
    /// The chip's steps when the totals below were right.
    counted: u64,
    waited: u64,
    lit: [u64; BLINKER_OUTPUTS],
    unlit: [u64; BLINKER_OUTPUTS],
}

impl<const DEFER: bool> Blinker<DEFER> {
    pub fn new(chip: Chip) -> Self {
        Blinker {
            chip,
            counted: 0,
            waited: 0,
            lit: [0; BLINKER_OUTPUTS],
            unlit: [0; BLINKER_OUTPUTS],
        }
    }

    pub fn chip(&self) -> &Chip {
        &self.chip
    }

    /// The chip, for what leaves its lamps' rule and its count alone.
    pub fn chip_mut(&mut self) -> &mut Chip {
        &mut self.chip
    }

    pub fn reset(&mut self) {
        self.settle();
        self.chip.reset();
        self.counted = 0;
    }

    pub fn write(&mut self, byte: u8) {
        self.settle();
        self.chip.write(byte);
    }

    /// Whether lit steps are counted that far.
    pub fn can_count(&self, steps: u64) -> bool {
        steps <= MAX_COUNT - self.chip.steps
    }

    pub fn can_wait(&self, steps: u64) -> bool {
        let waited = self.waited + self.chip.steps - self.counted;
        self.can_count(steps) && steps <= MAX_TOTAL - waited
    }

    pub fn wait(&mut self, steps: u64) {
        self.chip.steps += steps;
        if !DEFER {
            self.settle();
        }
    }

    /// Counts up to now, before the lamps get another rule or their count
    /// does. What outputs share is found once.
    fn settle(&mut self) {
        let (from, to) = (self.counted, self.chip.steps);
        if from == to {
            return;
        }
        self.counted = to;
        self.waited += to - from;
        let lit_between = |mode| self.chip.lit_below(mode, to) - self.chip.lit_below(mode, from);
        let lit = [0, 1, 2, 3].map(lit_between);
        for output in 0..BLINKER_OUTPUTS {
            let lit = lit[self.chip.mode(output) as usize];
            self.lit[output] += lit;
            self.unlit[output] += to - from - lit;
        }
    }

    /// The lit and unlit steps of each output.
    pub fn totals(&mut self) -> (&[u64], &[u64]) {
        if DEFER {
            self.settle();
        }
        (&self.lit, &self.unlit)
    }
}
