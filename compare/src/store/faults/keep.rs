//! Faults of making room, and of saves where room was made.

use super::{compare, is_full, longer_store_taken, numbered, only, refused_otherwise, right};
use super::{spare_byte_not_judged, CALLS};
use crate::store::calls::{Call, Calls, Left};
use crate::store::check::{places_in_use, shorten, ENOUGH_SEEDS};
use crate::store::{Store, Version, MAX_VERSION, PLACES, PLACE_SIZE, SIZE, TABLES};
use std::collections::BTreeSet;

pub const FAULTS: [(&str, Calls); 49] = [
    ("newest freed", newest_freed),
    ("newest freed beside one listed", newest_freed_beside_listed),
    ("newest over all tables", newest_over_all_tables),
    ("newest by place", newest_by_place),
    ("newest at the limit freed", newest_at_limit_freed),
    ("newest of the last table freed", newest_of_last_table_freed),
    ("newest of listed tables alone", newest_of_listed_tables),
    ("other tables than listed stay", other_tables_stay),
    ("list ignored", list_ignored),
    ("last pair ignored", last_pair_ignored),
    ("pairs behind the first ignored", more_pairs_ignored),
    ("pairs behind the 128th ignored", many_pairs_ignored),
    ("second place freed", second_place_freed),
    ("second place stays", second_place_stays),
    ("last place stays", last_place_stays),
    ("freed places counted twice", counted_twice),
    ("kept places counted", kept_counted),
    ("versions counted, not places", versions_counted),
    ("nothing counted", nothing_counted),
    ("nothing freed but counted", nothing_freed),
    ("freed place without number alone", number_cleared),
    ("freed place keeps its last byte", last_byte_stays),
    ("kept places moved to the front", moved_to_front),
    ("kept versions numbered anew", numbered_anew),
    ("version then table", version_then_table),
    ("listed table cut to a byte", listed_table_cut),
    ("listed table cut to six bits", listed_table_in_six_bits),
    ("listed version cut to 32 bits", listed_version_cut),
    ("listed version cut to 48 bits", listed_version_in_48_bits),
    ("missing pair ignored", missing_pair_ignored),
    ("later missing pair ignored", later_missing_ignored),
    ("table above 63 ignored", great_table_ignored),
    ("free place holds version 0", free_place_holds_zero),
    ("11 before 4, odd list", missing_before_odd),
    ("11 before 4, keep in a wrong store", missing_before_shape),
    ("spare byte not judged, keep", keep_in_wrong_shape),
    ("longer store taken, keep", keep_in_longer_store),
    ("11 for an odd list", odd_as_missing),
    ("odd list without its last number", last_number_ignored),
    ("odd list without its first number", first_number_ignored),
    ("empty list refused", empty_list_refused),
    ("empty list frees nothing", empty_list_frees_nothing),
    ("long list refused", long_list_refused),
    ("pair listed twice refused", twice_listed_refused),
    ("newest listed refused", newest_listed_refused),
    ("full store refused", full_refused),
    ("refused keep frees", refused_frees),
    ("free number given again", free_number_given),
    ("freed place not taken", freed_place_not_taken),
];

/// A version of a store in which room is made.
struct Held<'a> {
    store: &'a Store,
    listed: &'a [[u64; 2]],
    table: u64,
    version: &'a Version,
}

impl Held<'_> {
    fn is_listed_in(&self, listed: &[[u64; 2]]) -> bool {
        listed.contains(&[self.table, self.version.number])
    }

    fn is_listed(&self) -> bool {
        self.is_listed_in(self.listed)
    }

    fn is_newest(&self) -> bool {
        self.version.number + 1 == self.store.next_number(self.table)
    }

    fn is_kept(&self) -> bool {
        self.is_newest() || self.is_listed()
    }

    fn has_table_listed(&self) -> bool {
        self.listed.iter().any(|&[table, _]| table == self.table)
    }

    /// Whether no lower place holds the same version.
    fn is_first(&self) -> bool {
        let found = self.store.find(self.table, self.version.number);
        found.is_ok_and(|found| found.place == self.version.place)
    }
}

/// An accepted keep that keeps other versions.
fn keeping(keeps: fn(&Held) -> bool, call: &Call, store: &[u8]) -> Left {
    done(call, store, |listed, left| {
        let before = Store::from_bytes(store).unwrap();
        let mut freed = 0;
        left.store = store.to_vec();
        for (table, version) in before.versions() {
            let held = Held {
                store: &before,
                listed,
                table,
                version,
            };
            if !keeps(&held) {
                let start = PLACE_SIZE * version.place;
                left.store[start..start + PLACE_SIZE].fill(0);
                freed += 1;
            }
        }
        left.answer = Ok(freed);
    })
}

/// The right answer, with something changed where it is that of an accepted
/// keep, which goes by its pairs.
fn done(call: &Call, store: &[u8], change: impl FnOnce(&[[u64; 2]], &mut Left)) -> Left {
    let mut left = right(call, store);
    if let (Call::Keep { .. }, Ok(_)) = (call, left.answer) {
        let (listed, _) = call.list().as_chunks();
        change(listed, &mut left);
    }
    left
}

/// The right answer to a keep of another list.
fn with_list(other: impl FnOnce(&mut Vec<u64>), call: &Call, store: &[u8]) -> Left {
    let mut call = call.clone();
    if let Call::Keep { list } = &mut call {
        other(list);
    }
    right(&call, store)
}

/// The right answer to a keep of other pairs, each changed by itself.
fn with_pairs(other: fn(&mut [u64; 2]), call: &Call, store: &[u8]) -> Left {
    let change = |list: &mut Vec<u64>| list.as_chunks_mut().0.iter_mut().for_each(other);
    with_list(change, call, store)
}

/// The right answer to a keep of some pairs alone, told by their index and
/// numbers.
fn with_some(stays: impl Fn(usize, [u64; 2]) -> bool, call: &Call, store: &[u8]) -> Left {
    let change = |list: &mut Vec<u64>| {
        let (pairs, rest) = list.as_chunks();
        let some = pairs.iter().enumerate().filter(|one| stays(one.0, *one.1));
        let numbers = some.flat_map(|one| one.1).chain(rest);
        *list = numbers.copied().collect();
    };
    with_list(change, call, store)
}

/// An accepted keep that is refused where a condition holds of its list.
fn refused_if(holds: impl Fn(&[[u64; 2]]) -> bool, code: u64, call: &Call, store: &[u8]) -> Left {
    done(call, store, |listed, left| {
        if holds(listed) {
            *left = only(Err(code), call, store);
        }
    })
}

/// Whether a store holds a pair; nothing is held by one of wrong shape.
fn holds(store: &[u8], [table, version]: [u64; 2]) -> bool {
    Store::from_bytes(store).is_some_and(|store| store.find(table, version).is_ok())
}

fn newest_freed(call: &Call, store: &[u8]) -> Left {
    keeping(|held| held.is_listed(), call, store)
}

/// Its number would be given again.
fn newest_freed_beside_listed(call: &Call, store: &[u8]) -> Left {
    let keeps = |held: &Held| held.is_listed() || held.is_newest() && !held.has_table_listed();
    keeping(keeps, call, store)
}

fn newest_over_all_tables(call: &Call, store: &[u8]) -> Left {
    let keeps = |held: &Held| {
        let greatest = held.store.versions().map(|(_, one)| one.number).max();
        held.is_listed() || greatest == Some(held.version.number)
    };
    keeping(keeps, call, store)
}

fn newest_by_place(call: &Call, store: &[u8]) -> Left {
    let keeps = |held: &Held| {
        let of_table = held.store.versions().filter(|one| one.0 == held.table);
        let last = of_table.map(|(_, one)| one.place).max();
        held.is_listed() || last == Some(held.version.place)
    };
    keeping(keeps, call, store)
}

fn newest_at_limit_freed(call: &Call, store: &[u8]) -> Left {
    let keeps = |held: &Held| {
        let is_below = held.version.number < MAX_VERSION;
        held.is_listed() || held.is_newest() && is_below
    };
    keeping(keeps, call, store)
}

fn newest_of_last_table_freed(call: &Call, store: &[u8]) -> Left {
    let keeps = |held: &Held| {
        let is_before = held.table < TABLES - 1;
        held.is_listed() || held.is_newest() && is_before
    };
    keeping(keeps, call, store)
}

fn newest_of_listed_tables(call: &Call, store: &[u8]) -> Left {
    let keeps = |held: &Held| held.is_listed() || held.is_newest() && held.has_table_listed();
    keeping(keeps, call, store)
}

fn other_tables_stay(call: &Call, store: &[u8]) -> Left {
    let keeps = |held: &Held| held.is_kept() || !held.has_table_listed();
    keeping(keeps, call, store)
}

fn list_ignored(call: &Call, store: &[u8]) -> Left {
    keeping(|held| held.is_newest(), call, store)
}

fn last_pair_ignored(call: &Call, store: &[u8]) -> Left {
    let keeps = |held: &Held| {
        let before = held.listed.split_last().map(|(_, before)| before);
        held.is_newest() || before.is_some_and(|listed| held.is_listed_in(listed))
    };
    keeping(keeps, call, store)
}

fn more_pairs_ignored(call: &Call, store: &[u8]) -> Left {
    let keeps = |held: &Held| held.is_newest() || held.is_listed_in(first(1, held.listed));
    keeping(keeps, call, store)
}

fn many_pairs_ignored(call: &Call, store: &[u8]) -> Left {
    let keeps = |held: &Held| held.is_newest() || held.is_listed_in(first(128, held.listed));
    keeping(keeps, call, store)
}

fn first(pairs: usize, listed: &[[u64; 2]]) -> &[[u64; 2]] {
    &listed[..listed.len().min(pairs)]
}

fn second_place_freed(call: &Call, store: &[u8]) -> Left {
    keeping(|held| held.is_kept() && held.is_first(), call, store)
}

fn second_place_stays(call: &Call, store: &[u8]) -> Left {
    keeping(|held| held.is_kept() || !held.is_first(), call, store)
}

fn last_place_stays(call: &Call, store: &[u8]) -> Left {
    let keeps = |held: &Held| held.is_kept() || held.version.place == PLACES - 1;
    keeping(keeps, call, store)
}

/// An accepted keep with another value, which goes by the store before it and
/// the one after it.
fn counting(count: impl Fn(&Store, &Store) -> usize, call: &Call, store: &[u8]) -> Left {
    done(call, store, |_, left| {
        let [before, after] = [store, &left.store].map(|bytes| Store::from_bytes(bytes).unwrap());
        left.answer = Ok(count(&before, &after) as u64);
    })
}

fn counted_twice(call: &Call, store: &[u8]) -> Left {
    let count =
        |before: &Store, after: &Store| 2 * (before.versions().count() - after.versions().count());
    counting(count, call, store)
}

fn kept_counted(call: &Call, store: &[u8]) -> Left {
    counting(|_, after| after.versions().count(), call, store)
}

fn versions_counted(call: &Call, store: &[u8]) -> Left {
    let count = |store: &Store| {
        let versions = store.versions().map(|(table, one)| (table, one.number));
        versions.collect::<BTreeSet<(u64, u64)>>().len()
    };
    counting(|before, after| count(before) - count(after), call, store)
}

fn nothing_counted(call: &Call, store: &[u8]) -> Left {
    counting(|_, _| 0, call, store)
}

fn nothing_freed(call: &Call, store: &[u8]) -> Left {
    done(call, store, |_, left| left.store = store.to_vec())
}

/// An accepted keep in whose freed places some bytes stay.
fn leaving(stays: impl Fn(usize) -> bool, call: &Call, store: &[u8]) -> Left {
    done(call, store, |_, left| {
        for at in (0..SIZE).filter(|at| stays(at % PLACE_SIZE)) {
            left.store[at] = store[at];
        }
    })
}

fn number_cleared(call: &Call, store: &[u8]) -> Left {
    leaving(|at| at >= 8, call, store)
}

fn last_byte_stays(call: &Call, store: &[u8]) -> Left {
    leaving(|at| at == PLACE_SIZE - 1, call, store)
}

fn moved_to_front(call: &Call, store: &[u8]) -> Left {
    done(call, store, |_, left| {
        let places = left.store.chunks(PLACE_SIZE);
        let in_use = places.filter(|place| place.iter().any(|&byte| byte != 0));
        left.store = in_use.flatten().copied().collect();
        left.store.resize(SIZE, 0);
    })
}

/// From 1 on for each table, in the order of their places.
fn numbered_anew(call: &Call, store: &[u8]) -> Left {
    done(call, store, |_, left| {
        let mut after = Store::from_bytes(&left.store).unwrap();
        for versions in after.tables.values_mut() {
            for (number, version) in (1..).zip(versions) {
                version.number = number;
            }
        }
        left.store = after.bytes();
    })
}

fn version_then_table(call: &Call, store: &[u8]) -> Left {
    with_pairs(|pair| pair.reverse(), call, store)
}

fn listed_table_cut(call: &Call, store: &[u8]) -> Left {
    with_pairs(|pair| pair[0] &= 0xFF, call, store)
}

fn listed_table_in_six_bits(call: &Call, store: &[u8]) -> Left {
    with_pairs(|pair| pair[0] %= TABLES, call, store)
}

fn listed_version_cut(call: &Call, store: &[u8]) -> Left {
    with_pairs(|pair| pair[1] &= 0xFFFF_FFFF, call, store)
}

fn listed_version_in_48_bits(call: &Call, store: &[u8]) -> Left {
    with_pairs(|pair| pair[1] &= MAX_VERSION - 1, call, store)
}

fn missing_pair_ignored(call: &Call, store: &[u8]) -> Left {
    with_some(|_, pair| holds(store, pair), call, store)
}

fn later_missing_ignored(call: &Call, store: &[u8]) -> Left {
    with_some(|at, pair| at == 0 || holds(store, pair), call, store)
}

fn great_table_ignored(call: &Call, store: &[u8]) -> Left {
    with_some(|_, [table, _]| table < TABLES, call, store)
}

/// The bytes of a free place are those of a table 0 and a version 0.
fn free_place_holds_zero(call: &Call, store: &[u8]) -> Left {
    with_some(|_, pair| pair != [0, 0] || is_full(store), call, store)
}

fn missing_before_odd(call: &Call, store: &[u8]) -> Left {
    let (pairs, rest) = call.list().as_chunks();
    let missing = pairs.iter().any(|&pair| !holds(store, pair));
    refused_otherwise([4, 11], missing && !rest.is_empty(), call, store)
}

fn missing_before_shape(call: &Call, store: &[u8]) -> Left {
    let (pairs, rest) = call.list().as_chunks();
    let above = pairs.iter().any(|&[table, _]| table >= TABLES);
    refused_otherwise([4, 11], above && rest.is_empty(), call, store)
}

fn keep_in_wrong_shape(call: &Call, store: &[u8]) -> Left {
    match call {
        Call::Keep { .. } => spare_byte_not_judged(call, store),
        _ => right(call, store),
    }
}

fn keep_in_longer_store(call: &Call, store: &[u8]) -> Left {
    match call {
        Call::Keep { .. } => longer_store_taken(call, store),
        _ => right(call, store),
    }
}

fn odd_as_missing(call: &Call, store: &[u8]) -> Left {
    let is_odd = call.list().len() % 2 == 1;
    refused_otherwise([4, 11], is_odd, call, store)
}

fn last_number_ignored(call: &Call, store: &[u8]) -> Left {
    with_list(|list| list.truncate(list.len() / 2 * 2), call, store)
}

fn first_number_ignored(call: &Call, store: &[u8]) -> Left {
    let change = |list: &mut Vec<u64>| drop(list.drain(..list.len() % 2));
    with_list(change, call, store)
}

fn empty_list_refused(call: &Call, store: &[u8]) -> Left {
    refused_if(|listed| listed.is_empty(), 4, call, store)
}

fn empty_list_frees_nothing(call: &Call, store: &[u8]) -> Left {
    let keeps = |held: &Held| held.is_kept() || held.listed.is_empty();
    keeping(keeps, call, store)
}

/// One that has more pairs than a full store has versions.
fn long_list_refused(call: &Call, store: &[u8]) -> Left {
    refused_if(|listed| listed.len() > PLACES, 4, call, store)
}

fn twice_listed_refused(call: &Call, store: &[u8]) -> Left {
    let pairs = |listed: &[[u64; 2]]| listed.iter().copied().collect::<BTreeSet<_>>();
    let is_twice = |listed: &[[u64; 2]]| pairs(listed).len() < listed.len();
    refused_if(is_twice, 11, call, store)
}

fn newest_listed_refused(call: &Call, store: &[u8]) -> Left {
    let is_newest = |&[table, version]: &[u64; 2]| {
        let next = Store::from_bytes(store).map(|store| store.next_number(table));
        next == Some(version + 1)
    };
    let has_newest = |listed: &[[u64; 2]]| listed.iter().any(is_newest);
    refused_if(has_newest, 11, call, store)
}

fn full_refused(call: &Call, store: &[u8]) -> Left {
    refused_if(|_| is_full(store), 12, call, store)
}

/// As if what is missing were not listed.
fn refused_frees(call: &Call, store: &[u8]) -> Left {
    let mut left = right(call, store);
    if let (Call::Keep { .. }, Err(11)) = (call, left.answer) {
        left.store = missing_pair_ignored(call, store).store;
    }
    left
}

/// The least number that is not held of the table.
fn free_number_given(call: &Call, store: &[u8]) -> Left {
    let is_free = |store: &Store, table, number| store.find(table, number).is_err();
    let least = |store: &Store, table| (1..).find(|&number| is_free(store, table, number)).unwrap();
    numbered(least, call, store)
}

/// A store whose last place is in use is taken for full.
fn freed_place_not_taken(call: &Call, store: &[u8]) -> Left {
    let left = right(call, store);
    let mut last_place = store.iter().skip(SIZE - PLACE_SIZE);
    match call {
        Call::Save { .. } if left.answer.is_ok() && last_place.any(|&byte| byte != 0) => {
            only(Err(12), call, store)
        }
        _ => left,
    }
}

/// What shows the fault stays: the pair that is not held.
#[test]
fn pairs_that_a_failure_needs_stay() {
    let mismatch = compare(missing_pair_ignored, 1, ENOUGH_SEEDS, CALLS).mismatch;
    let (call, store) = shorten(missing_pair_ignored, &mismatch.unwrap());
    assert!(matches!(call, Call::Keep { list } if list.len() == 2));
    assert_eq!((places_in_use(&store).len(), store.len()), (0, SIZE));
}
