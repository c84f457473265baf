//! "A board on the bus behaves as if alone": what is left of accepted events
//! "with every other device removed and events naming others dropped (it is
//! then at position 0)".

use crate::model::Event;

/// Each event as the device at a position has it alone, or nothing where the
/// event goes. All events are accepted from an empty bus on, so that the adds
/// make the positions from 0 in turn.
pub fn heard(events: &[Event], position: u64) -> Vec<Option<Event>> {
    let mut made = 0..;
    let one = |&event: &Event| match event {
        Event::Add { .. } => (made.next() == Some(position)).then_some(event),
        _ => hear(event, position),
    };
    events.iter().map(one).collect()
}

/// The shortened sequence: what is left of the events for the device at a
/// position.
pub fn alone(events: &[Event], position: u64) -> Vec<Event> {
    heard(events, position).into_iter().flatten().collect()
}

/// An event other than an add.
fn hear(mut event: Event, position: u64) -> Option<Event> {
    if let Some(named) = named(&mut event) {
        if *named != position {
            return None;
        }
        *named = 0;
    }
    Some(event)
}

/// The position that an event names; none where it makes one, and none of
/// those that "count for all".
fn named(event: &mut Event) -> Option<&mut u64> {
    match event {
        Event::Add { .. } => None,
        Event::Start | Event::Stop | Event::Put { .. } | Event::Get { .. } => None,
        Event::Wait { device, .. }
        | Event::Oe { device, .. }
        | Event::Ext { device, .. }
        | Event::Reset { device }
        | Event::Lit { device, .. }
        | Event::Pin { device, .. } => Some(device),
    }
}

#[cfg(test)]
mod tests {
    use super::*;
    use crate::check::damage_share;
    use crate::generate;
    use crate::model::{Bus, Phase, MAX_DEVICES, MAX_OUTPUTS};
    use crate::replay::{self, Replay};
    use crate::text;
    use crate::timing::{lines_of, write_message};
    use std::collections::BTreeSet;
    use std::ops::RangeInclusive;

    const SEEDS: RangeInclusive<u64> = 1..=100;

    fn is_add(event: &Event) -> bool {
        matches!(event, Event::Add { .. })
    }

    /// Where the first START stands.
    fn first_start(events: &[Event]) -> usize {
        let is_start = |&event: &Event| event == Event::Start;
        events.iter().position(is_start).unwrap_or(events.len())
    }

    /// How many devices are added before the first START.
    fn early_devices(events: &[Event]) -> usize {
        let before = &events[..first_start(events)];
        before.iter().filter(|event| is_add(event)).count()
    }

    /// Those events that the model accepts, one after the other from an empty
    /// bus on.
    fn accepted(events: impl IntoIterator<Item = Event>) -> Vec<Event> {
        let mut bus = Bus::new();
        let accepts = |event: &Event| bus.apply(*event).0 == 0;
        events.into_iter().filter(accepts).collect()
    }

    /// All events of a seed's log.
    fn events_of_log(seed: u64) -> Vec<Event> {
        let log = generate::log(seed, 1000, damage_share(seed));
        text::lines(&log).filter_map(text::parse).collect()
    }

    /// The accepted events of a seed's log. "Adding happens before the first
    /// START in this statement", so that later adds are left out, and with
    /// them what names their devices.
    fn sequence(seed: u64) -> Vec<Event> {
        let mut events = events_of_log(seed);
        let late = events.split_off(first_start(&events));
        events.extend(late.into_iter().filter(|event| !is_add(event)));
        accepted(events)
    }

    /// The records after the events, whole and as text, or the place of the
    /// first refused event.
    fn records_after(events: &[Event]) -> Result<Vec<String>, usize> {
        let mut bus = Bus::new();
        for (place, &event) in events.iter().enumerate() {
            if bus.apply(event).0 != 0 {
                return Err(place);
            }
        }
        Ok(records(&bus))
    }

    fn records(bus: &Bus) -> Vec<String> {
        let record = |device| format!("{device:?}");
        bus.devices.iter().map(record).collect()
    }

    /// "A device's record afterwards equals the one it would have with every
    /// other device removed"; no event is refused.
    fn hold_records(name: &str, events: &[Event]) {
        let records = records_after(events).unwrap();
        for (position, record) in (0..).zip(records) {
            let left = records_after(&alone(events, position));
            assert_eq!(left, Ok(vec![record]), "{name}, position {position}");
        }
    }

    #[test]
    fn a_record_is_as_if_alone() {
        for seed in SEEDS {
            hold_records(&format!("seed {seed}"), &sequence(seed));
        }
    }

    /// The same on the way, at every seventh event; gives the device's parts
    /// in messages there.
    fn hold_on_the_way(events: &[Event], position: u64) -> Vec<Phase> {
        let (mut common, mut single) = (Bus::new(), Bus::new());
        let mut phases = Vec::new();
        for (place, heard) in heard(events, position).into_iter().enumerate() {
            assert_eq!(common.apply(events[place]).0, 0);
            if let Some(event) = heard {
                assert_eq!(single.apply(event).0, 0);
            }
            if place % 7 == 0 {
                let device = common.devices.get(position as usize);
                let alone = single.devices.first();
                assert_eq!(format!("{device:?}"), format!("{alone:?}"), "{place}");
                phases.extend(device.map(|device| device.phase));
            }
        }
        phases
    }

    #[test]
    fn a_record_is_as_if_alone_on_the_way() {
        let mut seen = BTreeSet::new();
        for seed in SEEDS {
            let events = sequence(seed);
            for position in 0..early_devices(&events) as u64 {
                let phases = hold_on_the_way(&events, position);
                seen.extend(phases.iter().map(|phase| format!("{phase:?}")));
            }
        }
        let call = (0..3).map(Phase::ResetCall);
        let others = [Phase::Deaf, Phase::Control, Phase::Data, Phase::Talk];
        let all = call.chain(others).map(|phase| format!("{phase:?}"));
        assert_eq!(seen, all.collect());
    }

    /// The value of each event, all of which must be accepted.
    type Values = fn(&[Event]) -> Vec<u64>;

    fn values_by_model(events: &[Event]) -> Vec<u64> {
        values_in(&text::run(&lines_of(events)))
    }

    fn values_by_twin(events: &[Event]) -> Vec<u64> {
        values_in(&lamptwin::run(&lines_of(events)))
    }

    fn values_in(answers: &[u8]) -> Vec<u64> {
        let value = |(index, line): (usize, &[u8])| {
            let line = std::str::from_utf8(line).unwrap();
            let head = format!("n={} code=0 value=", index + 1);
            line.strip_prefix(&head).expect(line).parse().unwrap()
        };
        text::lines(answers).enumerate().map(value).collect()
    }

    /// Whether a device's value alone suits the common one.
    fn suits(event: Event, position: u64, alone: u64, common: u64) -> bool {
        match event {
            Event::Put { .. } => alone == common >> position & 1,
            Event::Get { .. } => alone & common == common,
            Event::Add { .. } => (alone, common) == (0, position),
            _ => alone == common,
        }
    }

    /// "Values heard by the master may differ, because reads are ANDed and
    /// acknowledges gathered": so what the devices give alone makes the common
    /// value, and no other value differs, an add's apart.
    fn hold_values(name: &str, events: &[Event], values: Values) {
        let common = values(events);
        assert_eq!(common.len(), events.len());
        let mut gathered = vec![0; events.len()];
        let mut anded = vec![255; events.len()];
        let devices = events.iter().filter(|event| is_add(event)).count();
        for position in 0..devices as u64 {
            let heard = heard(events, position);
            let places = (0..events.len()).filter(|&place| heard[place].is_some());
            let single = values(&alone(events, position));
            assert_eq!(single.len(), places.clone().count());
            for (place, value) in places.zip(single) {
                let right = suits(events[place], position, value, common[place]);
                assert!(right, "{name}, position {position}, place {place}");
                gathered[place] |= value << position;
                anded[place] &= value;
            }
        }
        for (place, event) in events.iter().enumerate() {
            let made = match event {
                Event::Put { .. } => gathered[place],
                Event::Get { .. } => anded[place],
                _ => continue,
            };
            assert_eq!(made, common[place], "{name}, place {place}");
        }
    }

    #[test]
    fn values_differ_only_where_they_may() {
        for seed in SEEDS {
            hold_values(&format!("seed {seed}"), &sequence(seed), values_by_model);
        }
    }

    /// Questions about every output that there may be.
    fn questions() -> impl Iterator<Item = Event> {
        let outputs = (0..MAX_DEVICES as u64).flat_map(|device| {
            let outputs = 0..MAX_OUTPUTS as u64;
            outputs.map(move |output| (device, output))
        });
        outputs.flat_map(|(device, output)| {
            let lit = |ticks| Event::Lit {
                device,
                output,
                ticks,
            };
            [Event::Pin { device, output }, lit(1), lit(1 << 30)]
        })
    }

    /// The log of the events as a recording in which no time passes.
    fn recording(events: &[Event]) -> Vec<u8> {
        let line = |&event: &Event| format!("at=0 {}\n", text::format_event(event));
        events.iter().map(line).collect::<String>().into_bytes()
    }

    /// The twin's totals of a device at the end of a recording, as the library
    /// gives them.
    fn totals_by_twin(recording: &[u8], position: u64) -> Vec<u64> {
        let room = 2 * MAX_OUTPUTS;
        let start = room * position as usize;
        lamptwin::totals(recording)[start..start + room].to_vec()
    }

    /// What the real twin shows of its records: all values, among them those of
    /// questions about every output at the end, and the totals.
    #[test]
    fn the_twin_keeps_to_it() {
        for seed in SEEDS {
            let events = accepted(sequence(seed).into_iter().chain(questions()));
            hold_values(&format!("seed {seed}"), &events, values_by_twin);
            let common = recording(&events);
            for position in 0..early_devices(&events) as u64 {
                let single = recording(&alone(&events, position));
                let expected = totals_by_twin(&common, position);
                assert_eq!(totals_by_twin(&single, 0), expected, "seed {seed}");
            }
        }
    }

    /// A reset call, and so many events before its end a reset of one device,
    /// which takes this one out of the call, and no other.
    fn reset_call_with_reset(device: u64, before_end: usize) -> Vec<Event> {
        let boards = [(9635, 21), (9531, 0), (9634, 22)];
        let add = |(chip, address)| Event::Add { chip, address };
        let mut events = boards.map(add).to_vec();
        write_message(&mut events, 0x70, &[0x00, 0x01]);
        events.push(Event::Start);
        events.extend([0x06, 0xA5, 0x5A].map(|byte| Event::Put { byte }));
        events.push(Event::Stop);
        events.insert(events.len() - before_end, Event::Reset { device });
        events
    }

    #[test]
    fn a_reset_call_is_not_shared() {
        for device in 0..3 {
            for before_end in 0..=5 {
                let events = reset_call_with_reset(device, before_end);
                let name = format!("device {device}, {before_end} before the end");
                for end in 0..=events.len() {
                    hold_records(&name, &events[..end]);
                }
                hold_values(&name, &events, values_by_model);
                hold_values(&name, &events, values_by_twin);
            }
        }
    }

    /// A wait for every driver on the bus, in rising position.
    fn waits_of_drivers(bus: &Bus, ticks: u64) -> Vec<Event> {
        let devices = (0..).zip(&bus.devices);
        devices
            .filter(|(_, device)| device.chip.is_driver())
            .map(|(device, _)| Event::Wait { device, ticks })
            .collect()
    }

    /// "The accepted lines and their waits by hand", and the bus that the
    /// replay has at the end.
    fn by_hand(log: &[u8]) -> (Vec<Event>, Bus) {
        let mut replay = Replay::default();
        let mut events = Vec::new();
        for (stamp, event) in text::lines(log).filter_map(replay::parse) {
            let waits = waits_of_drivers(&replay.bus, replay.elapsed(stamp).into());
            if replay.step(stamp, event).0 == 0 {
                events.extend(waits);
                events.push(event);
            }
        }
        (events, replay.bus)
    }

    /// In a recording the time of a dropped line is not lost, by the model's
    /// records and by the twin's totals; other devices may come later.
    #[test]
    fn a_record_after_a_replay_is_as_if_alone() {
        for seed in SEEDS {
            let log = generate::stamped_log(seed, 1000, damage_share(seed));
            let (events, bus) = by_hand(&log);
            let records = records(&bus);
            assert_eq!(records_after(&events).as_ref(), Ok(&records));
            let early = early_devices(&events);
            for (position, record) in (0..).zip(&records[..early]) {
                let shortened = alone(&events, position);
                let place = format!("seed {seed}, position {position}");
                let expected = Ok(vec![record.clone()]);
                assert_eq!(records_after(&shortened), expected, "{place}");
                let totals = totals_by_twin(&recording(&shortened), 0);
                assert_eq!(totals, totals_by_twin(&log, position), "{place}");
            }
        }
    }

    /// Lines and their values. A PCA9635 and a PCA9531 both answer address 97.
    /// The first message wakes the driver by its all-call. The second leaves 9
    /// in LEDOUT0 of the one, and 64, 9 and 9 in PWM1, LS0 and LS1 of the
    /// other. The third reads LEDOUT0 of the one and INPUT of the other.
    const BOTH: &[(&str, u64)] = &[
        ("ev=add chip=9635 addr=97", 0),
        ("ev=add chip=9531 addr=1", 1),
        ("ev=start", 0),
        ("ev=put byte=224", 1),
        ("ev=put byte=0", 1),
        ("ev=put byte=1", 1),
        ("ev=start", 0),
        ("ev=put byte=194", 3),
        ("ev=put byte=20", 3),
        ("ev=put byte=64", 3),
        ("ev=put byte=9", 3),
        ("ev=put byte=9", 3),
        ("ev=stop", 0),
        ("ev=oe dev=0 level=1", 0),
        ("ev=ext dev=1 level=15", 0),
        ("ev=wait dev=0 ticks=100", 0),
        ("ev=wait dev=1 ticks=100", 0),
        ("ev=lit dev=0 out=0 ticks=50", 50),
        ("ev=lit dev=1 out=1 ticks=50", 28),
        ("ev=start", 0),
        ("ev=put byte=195", 3),
        ("ev=get ack=0", 8),
        ("ev=stop", 0),
    ];

    const DRIVER_ALONE: &[(&str, u64)] = &[
        ("ev=add chip=9635 addr=97", 0),
        ("ev=start", 0),
        ("ev=put byte=224", 1),
        ("ev=put byte=0", 1),
        ("ev=put byte=1", 1),
        ("ev=start", 0),
        ("ev=put byte=194", 1),
        ("ev=put byte=20", 1),
        ("ev=put byte=64", 1),
        ("ev=put byte=9", 1),
        ("ev=put byte=9", 1),
        ("ev=stop", 0),
        ("ev=oe dev=0 level=1", 0),
        ("ev=wait dev=0 ticks=100", 0),
        ("ev=lit dev=0 out=0 ticks=50", 50),
        ("ev=start", 0),
        ("ev=put byte=195", 1),
        ("ev=get ack=0", 9),
        ("ev=stop", 0),
    ];

    const BLINKER_ALONE: &[(&str, u64)] = &[
        ("ev=add chip=9531 addr=1", 0),
        ("ev=start", 0),
        ("ev=put byte=224", 0),
        ("ev=put byte=0", 0),
        ("ev=put byte=1", 0),
        ("ev=start", 0),
        ("ev=put byte=194", 1),
        ("ev=put byte=20", 1),
        ("ev=put byte=64", 1),
        ("ev=put byte=9", 1),
        ("ev=put byte=9", 1),
        ("ev=stop", 0),
        ("ev=ext dev=0 level=15", 0),
        ("ev=wait dev=0 ticks=100", 0),
        ("ev=lit dev=0 out=1 ticks=50", 28),
        ("ev=start", 0),
        ("ev=put byte=195", 1),
        ("ev=get ack=0", 12),
        ("ev=stop", 0),
    ];

    fn listed_events(list: &[(&str, u64)]) -> Vec<Event> {
        let event = |(line, _): &(&str, u64)| text::parse(line.as_bytes()).unwrap();
        list.iter().map(event).collect()
    }

    fn hold_listed_values(list: &[(&str, u64)]) {
        let listed: Vec<u64> = list.iter().map(|&(_, value)| value).collect();
        for values in [values_by_model, values_by_twin] {
            assert_eq!(values(&listed_events(list)), listed);
        }
    }

    #[test]
    fn two_boards_by_hand() {
        let events = listed_events(BOTH);
        hold_listed_values(BOTH);
        let records = records_after(&events).unwrap();
        let lists = [DRIVER_ALONE, BLINKER_ALONE];
        for (position, (list, record)) in (0..).zip(lists.iter().zip(records)) {
            let shortened = listed_events(list);
            assert_eq!(alone(&events, position), shortened);
            assert_eq!(records_after(&shortened), Ok(vec![record]));
            hold_listed_values(list);
        }
    }

    /// A wrong shortening: what is left of an event, given what should be.
    type Slip = fn(Event, Option<Event>) -> Option<Event>;

    /// Events that name others stay as they are.
    fn keep_others(event: Event, heard: Option<Event>) -> Option<Event> {
        heard.or((!is_add(&event)).then_some(event))
    }

    /// Events that name others come to name the device.
    fn take_others(mut event: Event, heard: Option<Event>) -> Option<Event> {
        if heard.is_none() {
            *named(&mut event)? = 0;
            return Some(event);
        }
        heard
    }

    /// The device's events name its old position.
    fn keep_position(event: Event, heard: Option<Event>) -> Option<Event> {
        heard.and(Some(event))
    }

    fn shorten_wrongly(slip: Slip, events: &[Event], position: u64) -> Vec<Event> {
        let events = events.iter().zip(heard(events, position));
        events
            .filter_map(|(&event, heard)| slip(event, heard))
            .collect()
    }

    /// An event is refused, or the record differs.
    #[test]
    fn a_wrong_shortening_shows() {
        let slips: [Slip; 3] = [keep_others, take_others, keep_position];
        let mut shown = [0; 3];
        for seed in SEEDS {
            let events = sequence(seed);
            let records = records_after(&events).unwrap();
            for (position, record) in (0..).zip(records) {
                let expected = Ok(vec![record]);
                for (shown, slip) in shown.iter_mut().zip(slips) {
                    let wrong = shorten_wrongly(slip, &events, position);
                    *shown += (records_after(&wrong) != expected) as usize;
                }
            }
        }
        assert!(shown.iter().all(|&shown| shown >= 100), "{shown:?}");
    }

    /// A device that is added behind some traffic hears, if its add is moved
    /// to the front, what was said before it came. With the add in its place
    /// it is as if alone, too.
    #[test]
    fn an_add_that_is_moved_shows() {
        let mut shown = 0;
        for seed in SEEDS {
            let events = accepted(events_of_log(seed));
            let records = records_after(&events).unwrap();
            let early = early_devices(&events);
            for (position, record) in (0..).zip(records).skip(early) {
                let expected = Ok(vec![record]);
                let mut shortened = alone(&events, position);
                assert_eq!(records_after(&shortened), expected);
                let add = shortened.iter().position(is_add).unwrap();
                shortened[..=add].rotate_right(1);
                shown += (records_after(&shortened) != expected) as usize;
            }
        }
        assert!(shown > 0);
    }
}
