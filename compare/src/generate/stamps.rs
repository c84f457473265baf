//! What only logs with stamps have: pauses of every length, drivers close to
//! their limit, and damaged stamps.

use super::{fill, Generator, Random, Step};
use crate::model::{Event, MAX_COUNT};
use crate::replay;
use crate::text;

/// Ticks of one round of the stamps.
const ROUND: u64 = 1 << 32;

/// Ends of damaged logs.
pub(super) const TAILS: [&str; 4] = ["\n", "\n\n", "at=0 ev=sta", "at=0 ev=start\n\nat=0 ev=stop"];

impl Generator {
    // Pauses.

    /// Chooses the time that the next line lets pass. In a damaged log it may
    /// be more than a driver has left.
    pub(super) fn choose_pause(&mut self) {
        self.pause = 0;
        if self.replay.stamp.is_none() {
            return;
        }
        let room = self.common_room();
        let may_pass = self.damage > 0 && room < ROUND - 1;
        self.pause = if may_pass && self.random.chance(15) {
            self.pause_past(room)
        } else {
            self.any_pause(room).min(room)
        };
    }

    /// The time that all drivers have left.
    fn common_room(&self) -> u64 {
        let rooms = self.driver_positions().into_iter();
        let rooms = rooms.map(|position| self.wait_room(position));
        rooms.min().unwrap_or(MAX_COUNT)
    }

    fn any_pause(&mut self, room: u64) -> u64 {
        match self.random.below(20) {
            0..=4 => 0,
            5..=8 => self.random.below(600),
            9..=12 => self.pause_to_edge(),
            13..=14 => self.any_size(32),
            15..=16 => self.pause_to_roll_over(),
            17 => ROUND - 1 - self.random.below(1000),
            _ if room < ROUND => room.saturating_sub(self.random.below(2)),
            _ => 1 + self.random.below(3),
        }
    }

    /// Until a pulse of a driver begins or ends.
    fn pause_to_edge(&mut self) -> u64 {
        let drivers = self.driver_positions();
        if drivers.is_empty() {
            return self.random.below(600);
        }
        let position = *self.random.pick(&drivers);
        self.ticks_to_edge(position)
    }

    /// Until a stamp just before the roll-over or after it.
    fn pause_to_roll_over(&mut self) -> u64 {
        let target = stamp_near_roll_over(&mut self.random);
        let earlier = self.replay.stamp.unwrap_or(target);
        replay::elapsed(target, earlier).into()
    }

    /// More than the room, by one or by more.
    fn pause_past(&mut self, room: u64) -> u64 {
        let more = room + 1 + self.random.below(ROUND - 1 - room);
        *self.random.pick(&[room + 1, room + 1, more, ROUND - 1])
    }

    /// Whether the pause is more than a driver has left.
    pub(super) fn past_limit(&self) -> bool {
        self.replay.bus.time_would_pass_limit(self.pause)
    }

    pub(super) fn next_stamp(&mut self) -> u32 {
        match self.replay.stamp {
            Some(earlier) => earlier.wrapping_add(self.pause as u32),
            None => self.first_stamp(),
        }
    }

    fn first_stamp(&mut self) -> u32 {
        let near_roll_over = stamp_near_roll_over(&mut self.random);
        let any = self.random.below(ROUND) as u32;
        *self.random.pick(&[near_roll_over, any])
    }

    // Plans.

    /// Sometimes frees a driver whose count lets no time pass, or brings a
    /// device close to its limit; gives whether anything was planned.
    pub(super) fn plan_for_limit(&mut self) -> bool {
        if self.replay.bus.devices.is_empty() {
            return false;
        }
        let drivers = self.driver_positions();
        let stuck = drivers.into_iter().find(|&driver| self.room(driver) == 0);
        match stuck {
            Some(driver) if self.random.chance(30) => self.plan_restart(driver),
            None if self.random.chance(10) => self.plan_near_limit(),
            _ => return false,
        }
        true
    }

    fn plan_near_limit(&mut self) {
        let position = self.position();
        self.plan.push_back(Step::WaitNearLimit(position));
        self.plan_questions(position);
    }

    // Disturbances.

    /// Where the time does not fit: an event that has a reason of its own to
    /// be refused, or the reset of a driver.
    pub(super) fn disturb_past_limit(&mut self) {
        let event = match self.random.below(8) {
            0 => self.out_of_turn(),
            1..=2 => self.wrong_numbers(),
            3..=4 => self.wrong_device_event(),
            5 => self.any_event(),
            _ => self.reset_of_driver(),
        };
        self.write_event(event);
    }

    fn reset_of_driver(&mut self) -> Event {
        let drivers = self.driver_positions();
        let device = *self.random.pick(&drivers) as u64;
        Event::Reset { device }
    }

    /// A damaged stamp, a wait or question that the line's time leaves too
    /// little room for, or a line as long as a line can be.
    pub(super) fn disturb_stamp(&mut self) {
        match self.random.below(10) {
            0 => {
                let event = self.longest_event();
                self.write_event(event);
            }
            1..=3 if self.pause > 0 && !self.driver_positions().is_empty() => {
                let event = self.event_past_limit();
                self.write_event(event);
            }
            _ => self.write_badly_stamped(),
        }
    }

    /// With its stamp it may have more than 80 bytes.
    fn longest_event(&mut self) -> Event {
        let mut number = || *self.random.pick(&[99_999_999_999_999, 999_999_999_999_999]);
        Event::Lit {
            device: number(),
            output: number(),
            ticks: number(),
        }
    }

    /// Brings a driver just to its limit, or past it by the line's time and
    /// its own, of which each fits alone.
    fn event_past_limit(&mut self) -> Event {
        let drivers = self.driver_positions();
        let position = *self.random.pick(&drivers);
        let more = self.random.below(self.pause);
        let ticks = self.wait_room(position) + *self.random.pick(&[0, 1, 1 + more]);
        let device = position as u64;
        if self.random.chance(50) {
            return Event::Wait { device, ticks };
        }
        Event::Lit {
            device,
            output: self.random.below(20),
            ticks,
        }
    }

    /// Often the right line follows.
    fn write_badly_stamped(&mut self) {
        let step = self.next_step();
        let event = self.resolve(step);
        if self.random.chance(60) {
            self.plan.push_front(Step::Event(event));
        }
        let stamp = self.next_stamp();
        let mut line = badly_stamped(&mut self.random, stamp, &text::format_event(event));
        line.push(b'\n');
        self.write_bytes(&line);
    }
}

/// One of the last stamps before the roll-over, or of the first after it.
fn stamp_near_roll_over(random: &mut Random) -> u32 {
    (random.below(8) as u32).wrapping_sub(4)
}

/// A line of which the stamp alone is wrong.
fn badly_stamped(random: &mut Random, stamp: u32, event: &str) -> Vec<u8> {
    let line = match random.below(8) {
        0..=2 => format!("at={} {event}", wrong_number(random, stamp)),
        3..=4 => {
            let gap = *random.pick(&["", "  ", "\t", " \t", "\r", ",", "\0"]);
            format!("at={stamp}{gap}{event}")
        }
        5..=6 => misplaced_stamp(random, stamp, event),
        _ => {
            let mut line = format!("at={stamp} {event}").into_bytes();
            fill(random, &mut line, 78, 24);
            return line;
        }
    };
    line.into_bytes()
}

/// No decimal, or one that is too large; it may fit when cut to 32 bits.
fn wrong_number(random: &mut Random, stamp: u32) -> String {
    let round = u128::from(ROUND);
    let wide = u128::from(stamp);
    let fifteen = 100_000_000_000_000 + random.below(900_000_000_000_000);
    match random.below(14) {
        0 => String::new(),
        1 => format!("0{stamp}"),
        2 => format!("{stamp:015}"),
        3 => format!("{stamp:016}"),
        4 => format!("{}", round + u128::from(random.below(3))),
        5 => format!("{}", round + wide),
        6 => format!("{}", round * round + wide),
        7 => format!("{fifteen}"),
        8 => format!("{fifteen}{}", random.below(10)),
        9 => format!("{stamp}{}", *random.pick(&["a", "x", "=", ".", "-"])),
        10 => format!("{}{stamp}", *random.pick(&["+", "-", "x", "=", "0x"])),
        11 => "9".repeat(17 + random.index(300)),
        12 => format!("{stamp:x}h"),
        _ => "x".to_string(),
    }
}

/// A stamp that lacks, stands in a wrong place or alone, or comes twice.
fn misplaced_stamp(random: &mut Random, stamp: u32, event: &str) -> String {
    match random.below(11) {
        0..=1 => event.to_string(),
        2 => format!("at={stamp}"),
        3 => format!("at={stamp} "),
        4 => format!("at={stamp} at={stamp} {event}"),
        5 => format!("{event} at={stamp}"),
        6 => event.replacen(' ', &format!(" at={stamp} "), 1),
        7 => format!(" at={stamp} {event}"),
        8 => format!("at{stamp} {event}"),
        9 => format!("{stamp} {event}"),
        _ => format!("AT={stamp} {event}"),
    }
}

#[cfg(test)]
mod tests {
    use super::*;
    use crate::check::damage_share;
    use crate::generate::situations::{lines_of, Counts, Line};
    use crate::generate::{log, stamped_log};
    use crate::model::{Bus, Chip};
    use crate::sort::Sort;
    use std::collections::BTreeSet;

    fn replayed(log: &[u8]) -> Vec<Line<'_>> {
        lines_of(Sort::Stamped, log)
    }

    fn codes(log: &[u8]) -> Vec<u64> {
        replayed(log).iter().map(|line| line.code).collect()
    }

    fn accepted_percent(seed: u64, damage: u64) -> usize {
        let codes = codes(&stamped_log(seed, 1000, damage));
        codes.iter().filter(|&&code| code == 0).count() * 100 / codes.len()
    }

    #[test]
    fn the_seed_decides() {
        assert_eq!(stamped_log(7, 500, 20), stamped_log(7, 500, 20));
        assert_ne!(stamped_log(7, 500, 20), stamped_log(8, 500, 20));
        assert_ne!(stamped_log(7, 500, 20), log(7, 500, 20));
    }

    #[test]
    fn sensible_logs_are_accepted() {
        for seed in 1..50 {
            assert!(accepted_percent(seed, 0) >= 99, "seed {seed}");
            assert!(accepted_percent(seed, 10) >= 60, "seed {seed}");
        }
    }

    #[test]
    fn all_codes_occur() {
        let logs = (1..20).map(|seed| stamped_log(seed, 2000, 20));
        let seen: BTreeSet<u64> = logs.flat_map(|log| codes(&log)).collect();
        assert_eq!(seen, BTreeSet::from([0, 1, 2, 3, 4, 5, 6, 7, 9, 10]));
    }

    #[test]
    fn any_damage_gives_a_log() {
        for damage in [0, 1, 50, 99, 100] {
            let log = stamped_log(3, 300, damage);
            assert!(text::lines(&log).count() >= 300);
        }
    }

    /// The logs that the comparison takes first.
    fn logs() -> impl Iterator<Item = Vec<u8>> {
        (1..=40).map(|seed| stamped_log(seed, 1000, damage_share(seed)))
    }

    fn would_pass(chip: &Chip, ticks: u64) -> bool {
        chip.awake() && ticks > MAX_COUNT - chip.count()
    }

    fn awake_drivers(bus: &Bus) -> impl Iterator<Item = &Chip> {
        let chips = bus.devices.iter().map(|device| &device.chip);
        chips.filter(|chip| chip.is_driver() && chip.awake())
    }

    /// The stamp of a line whose event may be of no shape.
    fn stamp_of(line: &[u8]) -> Option<u32> {
        let line = line.strip_prefix(b"at=")?;
        let digits = line.split(|&byte| byte == b' ').next()?;
        u32::try_from(text::decimal(digits)?).ok()
    }

    /// The roll-over, equal stamps and ones that go back, all accepted.
    fn count_stamps(counts: &mut Counts, line: &Line, stamp: u32) {
        let Some(earlier) = line.before.stamp else {
            return counts.count("refused before the first accepted", line.code != 0);
        };
        let elapsed = u64::from(replay::elapsed(stamp, earlier));
        let accepted = line.code == 0 && awake_drivers(&line.before.bus).count() > 0;
        let rolled_over = stamp < earlier && elapsed < ROUND / 2;
        counts.count(
            "rolled over by little",
            accepted && rolled_over && elapsed < 9,
        );
        counts.count("rolled over", accepted && rolled_over);
        counts.count("equal", accepted && elapsed == 0);
        counts.count("by one", accepted && elapsed == 1);
        counts.count("long pause", accepted && elapsed > ROUND / 4);
        let back = stamp < earlier && elapsed > ROUND - 1001;
        counts.count("back", accepted && back);
        counts.count("as far back as can be", accepted && elapsed == ROUND - 1);
    }

    /// Refusals by the time, and what holds besides.
    fn count_refusals(counts: &mut Counts, line: &Line, event: Event, ticks: u64) {
        let bus = &line.before.bus;
        let fits = !bus.time_would_pass_limit(ticks);
        let own = bus.clone().apply(event).0;
        let code = line.code;
        let past = awake_drivers(bus).filter(|chip| would_pass(chip, ticks));
        let past = past.count();
        let by_one = !fits && !bus.time_would_pass_limit(ticks - 1);
        counts.count("time alone", !fits && own == 0 && code == 6);
        counts.count("time alone, by one", by_one && own == 0 && code == 6);
        for number in [1, 2, 3, 5] {
            let name = format!("{number} before the time's");
            counts.count(name, !fits && own == number && code == number);
        }
        for number in [6, 7, 9, 10] {
            let name = format!("the time's before {number}");
            counts.count(name, !fits && own == number && code == 6);
        }
        let due_to_time = fits && own == 0 && code == 6;
        let is_wait = matches!(event, Event::Wait { .. });
        counts.count("wait's own, due to the time", due_to_time && is_wait);
        counts.count("lit's own, due to the time", due_to_time && !is_wait);
        let one_of_several = past == 1 && awake_drivers(bus).count() > 1;
        counts.count("one of several drivers", one_of_several && code == 6);
        let blinkers = bus.devices.iter().any(|device| !device.chip.is_driver());
        counts.count("a blinker beside it", past > 0 && blinkers && code == 6);
        let asleep = |chip: &Chip| chip.is_driver() && !chip.awake();
        let sleepers = bus.devices.iter().any(|device| asleep(&device.chip));
        counts.count(
            "an asleep driver beside it",
            past > 0 && sleepers && code == 6,
        );
    }

    /// Devices at their limit, before the line and by its time.
    fn count_limits(counts: &mut Counts, line: &Line, event: Event, ticks: u64) {
        let bus = &line.before.bus;
        let code = line.code;
        let at_limit = |chip: &Chip| chip.count() == MAX_COUNT;
        let reached = |chip: &Chip| ticks > 0 && chip.count() + ticks == MAX_COUNT;
        let stuck = awake_drivers(bus).any(at_limit);
        counts.count(
            "limit reached",
            code == 0 && awake_drivers(bus).any(reached),
        );
        counts.count("accepted at the limit", stuck && ticks == 0 && code == 0);
        counts.count("accepted past the limit", stuck && ticks > 0 && code == 0);
        if let Event::Reset { device } = event {
            let named = bus.devices.get(device as usize);
            let frees = named.is_some_and(|named| would_pass(&named.chip, ticks));
            counts.count("reset refused", stuck && frees && code == 6);
        }
        let chips = || bus.devices.iter().map(|device| &device.chip);
        let asleep = chips().any(|chip| chip.is_driver() && !chip.awake() && at_limit(chip));
        counts.count("asleep at the limit", asleep && ticks > 0 && code == 0);
        let blinker = chips().any(|chip| !chip.is_driver() && at_limit(chip));
        counts.count("blinker at the limit", blinker && ticks > 0 && code == 0);
    }

    /// A refused line and the one after it.
    fn count_pairs(counts: &mut Counts, first: &Line, second: &Line) {
        let elapsed = |line: &Line| Some(line.before.elapsed(stamp_of(line.bytes)?));
        let (Some(refused), Some(accepted)) = (elapsed(first), elapsed(second)) else {
            return;
        };
        let bus = &second.before.bus;
        let drivers = awake_drivers(bus).count() > 0;
        let answered = first.code != 0 && second.code == 0 && drivers;
        counts.count(
            "time since the last accepted",
            answered && refused > 0 && accepted > 0,
        );
        let by_time = bus.time_would_pass_limit(refused.into());
        counts.count(
            "equal after the time's",
            answered && by_time && accepted == 0,
        );
    }

    #[test]
    fn every_situation_occurs() {
        let mut counts = Counts::default();
        for log in logs() {
            let lines = replayed(&log);
            for line in &lines {
                let Some(stamp) = stamp_of(line.bytes) else {
                    continue;
                };
                count_stamps(&mut counts, line, stamp);
                let ticks = line.before.elapsed(stamp).into();
                let fits = !line.before.bus.time_would_pass_limit(ticks);
                counts.count("4 before the time's", !fits && line.code == 4);
                let long = line.bytes.len() > text::MAX_LINE;
                counts.count("long, of a listed shape", long && line.code != 4);
                if let Some((_, event)) = replay::parse(line.bytes) {
                    count_refusals(&mut counts, line, event, ticks);
                    count_limits(&mut counts, line, event, ticks);
                }
            }
            for pair in lines.windows(2) {
                count_pairs(&mut counts, &pair[0], &pair[1]);
            }
        }
        assert_eq!(counts.0.remove("accepted past the limit"), Some(0));
        counts.assert_all_occur();
    }

    /// What follows the stamp's key up to the first space.
    fn stamp_text(line: &[u8]) -> Option<&[u8]> {
        let stamp = line.strip_prefix(b"at=")?;
        stamp.split(|&byte| byte == b' ').next()
    }

    fn contains(line: &[u8], wanted: &[u8]) -> bool {
        line.windows(wanted.len()).any(|part| part == wanted)
    }

    fn count_damage(counts: &mut Counts, line: &[u8]) {
        let digits = stamp_text(line).unwrap_or(b"none");
        let is_number = !digits.is_empty() && digits.iter().all(u8::is_ascii_digit);
        let number = text::decimal(digits);
        counts.count("no stamp", text::parse(line).is_some());
        counts.count("empty", digits.is_empty());
        counts.count(
            "leading zero",
            is_number && digits.len() > 1 && digits[0] == b'0',
        );
        counts.count("2^32", number == Some(ROUND));
        counts.count("above 2^32", number > Some(ROUND));
        counts.count("15 digits", is_number && digits.len() == 15);
        counts.count("16 digits", is_number && digits.len() == 16);
        counts.count("letters", digits.len() > 1 && digits.ends_with(b"a"));
        counts.count("no space", contains(digits, b"ev="));
        let gap = |gap: &[u8]| number.is_some() && contains(line, &[digits, gap].concat());
        counts.count("two spaces", gap(b"  ev="));
        counts.count("tab", contains(line, b"\tev="));
        counts.count("two stamps", gap(b" at="));
        counts.count(
            "at the end",
            line.starts_with(b"ev=") && contains(line, b" at="),
        );
        counts.count("alone", number.is_some() && line.len() == 3 + digits.len());
    }

    #[test]
    fn every_damage_occurs() {
        let mut counts = Counts::default();
        for log in logs() {
            for line in replayed(&log).iter().filter(|line| line.code == 4) {
                count_damage(&mut counts, line.bytes);
            }
        }
        counts.assert_all_occur();
    }
}
