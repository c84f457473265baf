//! The lamps of a driver, by the registers in effect.

use super::Driver;
use crate::chips::{
    ticks_below, BLINK_PERIOD, BLINK_STEP, BRIGHTNESS_PERIOD, DIMMING_PERIOD, DIMMING_STEP, DMBLNK,
    INDIVIDUAL, OFF, ON, PWM0,
};
use std::array;

/// What the outputs go by, so that all are counted alike: an output is lit for
/// the first n ticks of every round of 256 of the driver's own, or of the
/// group's lit ones. One that is on has the whole round.
#[derive(Clone, Copy, Default)]
pub struct Lamps {
    eights: [Eight; 2],
    /// The group's lit ticks before the driver's count, if an output follows
    /// the group.
    group_at: Option<u64>,
}

#[derive(Clone, Copy, Default)]
struct Eight {
    n: [u16; EIGHT],
    /// All bits where an output follows the group.
    grouped: [u16; EIGHT],
}

pub const EIGHT: usize = 8;
const WHOLE_ROUND: u16 = BRIGHTNESS_PERIOD as u16;

/// A stretch of ticks cut into rounds of 256, of which an output has the first
/// n of each: one more output costs a product and two comparisons.
#[derive(Clone, Copy, Default)]
struct Rounds {
    /// From the first to the last, and the places in them where the stretch
    /// begins and ends.
    whole: u64,
    first: u16,
    last: u16,
}

impl Rounds {
    /// The ticks from .. to-1.
    fn between(from: u64, to: u64) -> Rounds {
        Rounds {
            whole: (to >> 8) - (from >> 8),
            first: (from & 255) as u16,
            last: (to & 255) as u16,
        }
    }

    fn lit(&self, n: u16) -> u64 {
        self.whole * u64::from(n) + u64::from(self.last.min(n)) - u64::from(self.first.min(n))
    }
}

impl Eight {
    /// The lit ticks of each in a stretch of fewer than 2^32 ticks. All is in 16
    /// and 32 bits and without a branch, so that the compiler does several
    /// outputs at once.
    #[inline(always)]
    fn lit(&self, own: Rounds, group: Rounds) -> [u64; EIGHT] {
        let low = [own.whole as u16, group.whole as u16];
        let high = [(own.whole >> 16) as u16, (group.whole >> 16) as u16];
        let first = [own.first, group.first];
        let last = [own.last, group.last];
        array::from_fn(|i| {
            let n = self.n[i];
            let pick = |[own, group]: [u16; 2]| own ^ (own ^ group) & self.grouped[i];
            let product = |whole: u16| u32::from(whole) * u32::from(n);
            let whole = product(pick(low)).wrapping_add(product(pick(high)) << 16);
            let ends = pick(last).min(n) as i16 - pick(first).min(n) as i16;
            whole.wrapping_add_signed(ends.into()).into()
        })
    }

    /// The same of any stretch.
    fn lit_long(&self, own: Rounds, group: Rounds) -> [u64; EIGHT] {
        array::from_fn(|i| match self.grouped[i] {
            0 => own.lit(self.n[i]),
            _ => group.lit(self.n[i]),
        })
    }
}

impl<const DEFER: bool> Driver<DEFER> {
    fn mode(&self, output: usize) -> u8 {
        let byte = self.in_effect[(self.map.ledout as usize + output / 4) & 31];
        byte >> (2 * (output % 4)) & 3
    }

    fn brightness(&self, output: usize) -> u8 {
        self.in_effect[(PWM0 as usize + output) & 31]
    }

    /// The group's lit ticks among 0 .. x-1. Its period and its lit part are
    /// whole rounds of 256, so these ticks, numbered on their own, run through
    /// the rounds of a brightness without a gap.
    fn group_below(&self, x: u64) -> u64 {
        let dimming = u64::from(self.in_effect[self.map.grppwm as usize & 31]);
        if self.mode2() & DMBLNK == 0 {
            return ticks_below(x, DIMMING_PERIOD, DIMMING_STEP * dimming);
        }
        let steps = u32::from(self.in_effect[self.map.grpfreq as usize & 31]) + 1;
        // A count is at most 2^48, so its blink steps are below 2^32.
        let whole = (x / BLINK_PERIOD) as u32;
        let on = BLINK_STEP * dimming * u64::from(steps);
        let rest = u64::from(whole % steps) * BLINK_PERIOD + x % BLINK_PERIOD;
        u64::from(whole / steps) * on + rest.min(on)
    }

    pub(super) fn is_lit(&self, output: usize, tick: u64) -> bool {
        let bright = (tick as u8) < self.brightness(output);
        match self.mode(output) {
            OFF => false,
            ON => true,
            INDIVIDUAL => bright,
            _ => bright && self.group_below(tick) != self.group_below(tick + 1),
        }
    }

    /// Lit ticks among the next ones.
    pub fn lit_ticks(&self, clock: u64, output: usize, ticks: u64) -> u64 {
        let from = self.ticks_at(clock);
        if !self.is_awake() {
            return if self.is_lit(output, from) { ticks } else { 0 };
        }
        let rounds = match self.mode(output) {
            OFF => return 0,
            ON => return ticks,
            INDIVIDUAL => Rounds::between(from, from + ticks),
            _ => Rounds::between(self.group_below(from), self.group_below(from + ticks)),
        };
        rounds.lit(self.brightness(output).into())
    }

    /// What the outputs go by now. Asleep a lamp stays as it is.
    pub(super) fn lamps_now(&self) -> Lamps {
        let mut lamps = Lamps::default();
        let mut has_group = false;
        for output in 0..self.map.outputs {
            let (eight, place) = (&mut lamps.eights[output / EIGHT], output % EIGHT);
            let mode = match self.is_awake() {
                true => self.mode(output),
                false => u8::from(self.is_lit(output, self.ticks)),
            };
            let brightness = u16::from(self.brightness(output));
            eight.n[place] = [0, WHOLE_ROUND, brightness, brightness][mode as usize];
            eight.grouped[place] = if mode > INDIVIDUAL { u16::MAX } else { 0 };
            has_group |= mode > INDIVIDUAL;
        }
        lamps.group_at = has_group.then(|| self.group_below(self.ticks));
        lamps
    }

    /// Counts up to the clock, before the lamps get another rule or their
    /// count does. What outputs share is found once.
    pub fn settle(&mut self, clock: u64) {
        let passed = clock.wrapping_sub(self.since);
        if passed == 0 {
            return;
        }
        self.since = clock;
        self.waited += passed;
        if DEFER {
            self.lamps = self.lamps_now();
        }
        let (from, to) = (self.ticks, self.ticks + passed);
        let own = Rounds::between(from, to);
        let mut group = Rounds::default();
        if let Some(at) = self.lamps.group_at {
            let end = self.group_below(to);
            group = Rounds::between(at, end);
            self.lamps.group_at = Some(end);
        }
        if self.is_awake() {
            self.ticks = to;
        }
        self.add(passed, own, group);
    }

    /// Adds what the rounds have for each output.
    fn add(&mut self, passed: u64, own: Rounds, group: Rounds) {
        let totals = self.lit.iter_mut().zip(&mut self.unlit);
        let eights = self.lamps.eights.iter().zip(totals);
        for (eight, (lit_totals, unlit_totals)) in eights.take(self.map.outputs / EIGHT) {
            let lit = match passed >> 32 {
                0 => eight.lit(own, group),
                _ => eight.lit_long(own, group),
            };
            for i in 0..EIGHT {
                lit_totals[i] += lit[i];
                unlit_totals[i] += passed - lit[i];
            }
        }
    }
}
