//! What only some logs have: run upon run of the longest waits, which bring
//! one device after the other to the limit of its totals.

use super::{Generator, Step};
use crate::model::{Event, MAX_COUNT, MAX_TOTAL, SLEEP};

/// One log in so many has such runs. The seed alone decides it, so that the
/// other logs have no draw more for it.
const SHARE: u64 = 7;

pub(super) fn wears(seed: u64) -> bool {
    seed.is_multiple_of(SHARE)
}

impl Generator {
    /// Ticks left until the limit of a device's totals, when the next line's
    /// time has passed. All its outputs have waited alike.
    fn total_room(&self, position: usize) -> u64 {
        let device = &self.replay.bus.devices[position];
        let room = MAX_TOTAL - device.totals[0].waited();
        if device.chip.is_driver() {
            room.saturating_sub(self.pause)
        } else {
            room
        }
    }

    /// Ticks left for a wait.
    pub(super) fn wait_room(&self, position: usize) -> u64 {
        self.room(position).min(self.total_room(position))
    }

    /// A run of the longest waits, of a driver mostly asleep.
    pub(super) fn plan_wear(&mut self) {
        if self.replay.bus.devices.is_empty() {
            return self.plan_boards();
        }
        let position = self.most_worn();
        let chip = &self.replay.bus.devices[position].chip;
        if chip.is_driver() && chip.awake() && self.random.chance(70) {
            let byte = self.random.byte() | SLEEP;
            self.plan_mode1(position, byte);
            self.push(Event::Stop);
        }
        for _ in 0..10 + self.random.below(30) {
            self.plan.push_back(Step::Wear(position));
        }
    }

    /// The device that has waited longest of those that can wait on, or any
    /// one where none has waited long.
    fn most_worn(&mut self) -> usize {
        let any = self.position();
        let waited = |position: usize| self.replay.bus.devices[position].totals[0].waited();
        (0..self.replay.bus.devices.len())
            .filter(|&position| (MAX_COUNT..MAX_TOTAL).contains(&waited(position)))
            .max_by_key(|&position| waited(position))
            .unwrap_or(any)
    }

    /// About the longest wait that the count and the totals leave; a reset where
    /// the count leaves too little, and sometimes where no reset helps.
    pub(super) fn wear(&mut self, position: usize) -> Event {
        let device = position as u64;
        let room = self.room(position);
        let total = self.total_room(position);
        let spent = room < total && room < MAX_COUNT / 2;
        if spent || total == 0 && self.random.chance(10) {
            return Event::Reset { device };
        }
        let ticks = if room < total {
            room - *self.random.pick(&[0, 0, 1, 3])
        } else {
            self.last_ticks(total)
        };
        Event::Wait { device, ticks }
    }

    /// Short ones close to the limit of the totals, or just to it; in a damaged
    /// log past it by one, too.
    fn last_ticks(&mut self, total: u64) -> u64 {
        match self.random.below(16) {
            0 => total,
            1..=5 => total + (self.damage > 0) as u64,
            6..=8 => total.saturating_sub(self.any_size(34)),
            9..=10 => total.saturating_sub(1),
            _ => self.random.below(600).min(total / 2),
        }
    }
}

#[cfg(test)]
mod tests {
    use super::*;
    use crate::check::damage_share;
    use crate::generate::situations::{lines_of, Counts, Line};
    use crate::model::{Bus, Device, COUNT_LIMIT};
    use crate::sort::Sort;

    fn total_room(device: &Device) -> u64 {
        MAX_TOTAL - device.totals[0].waited()
    }

    /// What a device's count leaves to a wait, or any wait asleep.
    fn count_room(device: &Device) -> u64 {
        if device.chip.awake() {
            MAX_COUNT - device.chip.count()
        } else {
            MAX_COUNT
        }
    }

    /// Both rooms when so much time has passed; nothing where it does not fit.
    fn rooms_after(device: &Device, time: u64) -> Option<(u64, u64)> {
        let time = time * device.chip.is_driver() as u64;
        let moved = time * device.chip.awake() as u64;
        let count = count_room(device).checked_sub(moved)?;
        Some((count, total_room(device).checked_sub(time)?))
    }

    /// Waits of so many ticks, and questions about as many, where the line's
    /// time fits.
    fn count_device_lines(counts: &mut Counts, line: &Line, sort: Sort, time: u64, event: Event) {
        let (Event::Wait { device, ticks } | Event::Lit { device, ticks, .. }) = event else {
            return;
        };
        let Some(device) = line.before.bus.devices.get(device as usize) else {
            return;
        };
        let Some((room, total)) = rooms_after(device, time) else {
            return;
        };
        let driver = device.chip.is_driver();
        let kind = if driver { "driver" } else { "blinker" };
        let mut count = |name, holds| counts.count(format!("{sort:?} {kind}: {name}"), holds);
        let (accepted, refused) = (line.code == 0, line.code == COUNT_LIMIT);
        if !matches!(event, Event::Wait { .. }) {
            return count("lit past the totals", accepted && ticks > total);
        }
        let at_limit = total == 0;
        let by_one = refused && ticks == total + 1 && ticks <= room;
        count("reached", accepted && !at_limit && ticks == total);
        count("just below", accepted && ticks + 1 == total);
        count("past by one", by_one && !at_limit);
        count("1 at the limit", by_one && at_limit);
        count("0 at the limit", accepted && at_limit && ticks == 0);
        if driver {
            let asleep = !device.chip.awake();
            let too_long = asleep && refused && ticks <= total;
            count("2^48 asleep", asleep && accepted && ticks == MAX_COUNT);
            count("2^48 + 1 asleep", too_long && ticks == MAX_COUNT + 1);
            count("more asleep", too_long && ticks > MAX_COUNT + 1);
        }
    }

    fn drivers(bus: &Bus) -> impl Iterator<Item = &Device> {
        bus.devices.iter().filter(|device| device.chip.is_driver())
    }

    /// The time of a line.
    fn count_times(counts: &mut Counts, line: &Line, time: u64, event: Event) {
        let bus = &line.before.bus;
        let own = bus.clone().apply(event).0;
        let (accepted, refused) = (line.code == 0, line.code == COUNT_LIMIT);
        let past = drivers(bus).any(|driver| time > total_room(driver));
        // No count is in the way.
        let alone = past && drivers(bus).all(|driver| time <= count_room(driver));
        let by_one = alone && !bus.time_would_pass_limit(time - 1);
        counts.count("time past", alone && own == 0 && refused);
        counts.count("time past by one", by_one && own == 0 && refused);
        counts.count("5 before the time's", alone && own == 5 && line.code == 5);
        counts.count("the time's before 9", alone && own == 9 && refused);
        let asleep = drivers(bus).all(|driver| !driver.chip.awake());
        counts.count("time past, all asleep", alone && asleep && refused);
        let reached = time > 0 && drivers(bus).any(|driver| time == total_room(driver));
        counts.count("time reached", reached && accepted);
        counts.count("time past, accepted", past && accepted);
    }

    /// What a device at the limit of its totals bars and what not.
    fn count_limits(counts: &mut Counts, line: &Line, time: u64, event: Event) {
        let bus = &line.before.bus;
        let (accepted, refused) = (line.code == 0, line.code == COUNT_LIMIT);
        let at_limit = |device: &Device| total_room(device) == 0;
        let stuck = drivers(bus).any(at_limit);
        counts.count("equal at the limit", stuck && time == 0 && accepted);
        if let Event::Reset { device } = event {
            let named = bus.devices.get(device as usize).is_some_and(at_limit);
            counts.count("reset at the limit", named && accepted);
            counts.count("reset refused", named && stuck && time > 0 && refused);
        }
        let blinker = |device: &Device| !device.chip.is_driver() && at_limit(device);
        let beside = bus.devices.iter().any(blinker) && drivers(bus).count() > 0;
        counts.count("blinker at the limit", beside && time > 0 && accepted);
    }

    /// A wait that the totals had room for without the line's time.
    fn count_due_to_time(counts: &mut Counts, line: &Line, time: u64, event: Event) {
        let Event::Wait { device, ticks } = event else {
            return;
        };
        let named = line.before.bus.devices.get(device as usize);
        let rooms = named.and_then(|device| rooms_after(device, time));
        let by_totals = rooms.is_some_and(|(room, total)| total < ticks && ticks <= room);
        let own = line.before.bus.clone().apply(event).0;
        let due = own == 0 && line.code == COUNT_LIMIT;
        counts.count("wait's own, due to the time", by_totals && due);
    }

    /// In the logs that the comparison takes first, of either sort.
    #[test]
    fn every_situation_occurs() {
        let mut counts = Counts::default();
        for sort in [Sort::Plain, Sort::Stamped] {
            for seed in 1..=200 {
                let log = sort.log(seed, 1000, damage_share(seed));
                for line in lines_of(sort, &log) {
                    let Some((time, event)) = line.event(sort) else {
                        continue;
                    };
                    count_device_lines(&mut counts, &line, sort, time, event);
                    if sort == Sort::Stamped {
                        count_times(&mut counts, &line, time, event);
                        count_limits(&mut counts, &line, time, event);
                        count_due_to_time(&mut counts, &line, time, event);
                    }
                }
            }
        }
        assert_eq!(counts.0.remove("time past, accepted"), Some(0));
        counts.assert_all_occur();
    }

    /// The first five are timed.
    #[test]
    fn one_log_in_seven_has_long_waits() {
        let longest = format!("ticks={MAX_COUNT}");
        for seed in 1..=14 {
            for sort in [Sort::Plain, Sort::Stamped] {
                let log = String::from_utf8(sort.log(seed, 1000, 0)).unwrap();
                let many = log.matches(&longest).count() > 100;
                assert_eq!(many, seed % 7 == 0, "seed {seed}, {sort:?}");
            }
        }
    }
}
