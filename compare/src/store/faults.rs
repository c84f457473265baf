//! Whether the comparison finds faults: each function here answers calls as
//! the model does, but for one thing.

mod keep;

use super::calls::{Call, Calls, Left};
use super::check::{compare, places_in_use, shorten, ENOUGH_SEEDS};
use super::setting::KINDS;
use super::{Lent, Store, MAX_VERSION, PLACE_SIZE, SIZE};
use crate::model::Answer;

const CALLS: u64 = 200;

const FAULTS: [(&str, Calls); 37] = [
    ("fresh wants a right shape", fresh_wants_shape),
    ("numbers over all tables", numbers_over_all_tables),
    ("numbers by count", numbers_by_count),
    ("last number refused", last_number_refused),
    ("last free place taken", last_free_place),
    ("257th save takes a place", full_takes_a_place),
    ("12 before 11, save", full_before_table),
    ("12 before 11, return", full_before_missing),
    ("4 before 1", shape_before_chip),
    ("4 before 2", shape_before_address),
    ("11 before 4", table_before_shape),
    ("11 before 4, read", table_before_shape_in_read),
    ("11 before 6", missing_before_limit),
    ("12 before 6", full_before_limit),
    ("table cut to a byte", table_cut),
    ("version cut to 32 bits", version_cut),
    ("return overwrites", return_overwrites),
    ("read one byte too long", read_one_more),
    ("exact buffer refused", exact_buffer_refused),
    ("short buffer filled", short_buffer_filled),
    ("last of two places read", last_of_two_read),
    ("place without number is free", place_without_number_free),
    ("number above the limit taken", great_number_taken),
    ("table of a place not judged", table_not_judged),
    ("kind of a place not judged", kind_not_judged),
    ("address of a place not judged", address_not_judged),
    ("spare byte not judged", spare_byte_not_judged),
    ("bytes past the registers not judged", rest_not_judged),
    ("longer store taken", longer_store_taken),
    ("last line feed may lack", line_feed_may_lack),
    ("carriage return taken", carriage_return_taken),
    ("leading zero taken", leading_zero_taken),
    ("16 digits taken", sixteen_digits_taken),
    ("lines behind taken", lines_behind_taken),
    ("register cut to a byte", register_cut),
    ("unknown chip needs all lines", chip_needs_lines),
    ("barred address needs all lines", address_needs_lines),
];

/// Without a fault.
fn right(call: &Call, store: &[u8]) -> Left {
    call.by_model(&mut Lent::new(store))
}

/// Another answer, with nothing changed.
fn only(answer: Answer, call: &Call, store: &[u8]) -> Left {
    Left {
        answer,
        store: store.to_vec(),
        buffer: call.buffer(),
    }
}

/// The right answer, but refused with another number where a condition holds
/// and the right number is the first of the two.
fn refused_otherwise([code, other]: [u64; 2], holds: bool, call: &Call, store: &[u8]) -> Left {
    let left = right(call, store);
    match left.answer {
        Err(number) if number == code && holds => only(Err(other), call, store),
        _ => left,
    }
}

fn is_full(store: &[u8]) -> bool {
    Store::from_bytes(store).is_some_and(|store| store.is_full())
}

/// The table and version that a call names.
fn named(call: &mut Call) -> (Option<&mut u64>, Option<&mut u64>) {
    match call {
        Call::Fresh | Call::Keep { .. } => (None, None),
        Call::Save { table, .. } => (Some(table), None),
        Call::Return { table, version } | Call::Read { table, version, .. } => {
            (Some(table), Some(version))
        }
    }
}

fn fresh_wants_shape(call: &Call, store: &[u8]) -> Left {
    match call {
        Call::Fresh if Store::from_bytes(store).is_none() => only(Err(4), call, store),
        _ => right(call, store),
    }
}

/// An accepted save or return with another number, which goes by the store
/// before it and the table.
fn numbered(number: impl Fn(&Store, u64) -> u64, call: &Call, store: &[u8]) -> Left {
    let mut left = right(call, store);
    let table = named(&mut call.clone()).0.copied();
    let written = (0..SIZE).find(|&at| left.store.get(at) != store.get(at));
    if let (Ok(_), Some(table), Some(at)) = (left.answer, table, written) {
        let before = Store::from_bytes(store).unwrap();
        let number = number(&before, table);
        let start = at / PLACE_SIZE * PLACE_SIZE;
        left.store[start..start + 8].copy_from_slice(&number.to_le_bytes());
        left.answer = Ok(number);
    }
    left
}

fn numbers_over_all_tables(call: &Call, store: &[u8]) -> Left {
    let greatest = |store: &Store| store.versions().map(|(_, one)| one.number).max();
    numbered(|store, _| 1 + greatest(store).unwrap_or(0), call, store)
}

fn numbers_by_count(call: &Call, store: &[u8]) -> Left {
    let count = |store: &Store, table| store.versions().filter(|one| one.0 == table).count();
    numbered(|store, table| 1 + count(store, table) as u64, call, store)
}

fn last_number_refused(call: &Call, store: &[u8]) -> Left {
    match (call, right(call, store)) {
        (Call::Save { .. }, left) if left.answer == Ok(MAX_VERSION) => only(Err(6), call, store),
        (_, left) => left,
    }
}

fn in_reverse(store: &[u8]) -> Vec<u8> {
    let places: Vec<&[u8]> = store.chunks(PLACE_SIZE).rev().collect();
    places.concat()
}

fn last_free_place(call: &Call, store: &[u8]) -> Left {
    let mut left = right(call, &in_reverse(store));
    left.store = in_reverse(&left.store);
    match call {
        Call::Save { .. } => left,
        _ => right(call, store),
    }
}

fn last_of_two_read(call: &Call, store: &[u8]) -> Left {
    let mut left = right(call, &in_reverse(store));
    left.store = store.to_vec();
    match call {
        Call::Read { .. } => left,
        _ => right(call, store),
    }
}

fn full_takes_a_place(call: &Call, store: &[u8]) -> Left {
    let left = right(call, store);
    match call {
        Call::Save { .. } if left.answer == Err(12) => {
            let mut store = store.to_vec();
            store[..PLACE_SIZE].fill(0);
            right(call, &store)
        }
        _ => left,
    }
}

fn full_before_table(call: &Call, store: &[u8]) -> Left {
    let saves = matches!(call, Call::Save { .. });
    refused_otherwise([11, 12], saves && is_full(store), call, store)
}

fn full_before_missing(call: &Call, store: &[u8]) -> Left {
    let returns = matches!(call, Call::Return { .. });
    refused_otherwise([11, 12], returns && is_full(store), call, store)
}

fn full_before_limit(call: &Call, store: &[u8]) -> Left {
    refused_otherwise([6, 12], is_full(store), call, store)
}

fn shape_before_chip(call: &Call, store: &[u8]) -> Left {
    let wrong = Store::from_bytes(store).is_none();
    refused_otherwise([1, 4], wrong, call, store)
}

fn shape_before_address(call: &Call, store: &[u8]) -> Left {
    let wrong = Store::from_bytes(store).is_none();
    refused_otherwise([2, 4], wrong, call, store)
}

fn table_before_shape(call: &Call, store: &[u8]) -> Left {
    let table = named(&mut call.clone()).0.copied();
    let holds = table.is_some_and(|table| table > 63);
    refused_otherwise([4, 11], holds, call, store)
}

fn table_before_shape_in_read(call: &Call, store: &[u8]) -> Left {
    match call {
        Call::Read { .. } => table_before_shape(call, store),
        _ => right(call, store),
    }
}

fn missing_before_limit(call: &Call, store: &[u8]) -> Left {
    let missing = match (Lent::new(store), call) {
        (Lent::Store(store), &Call::Return { table, version }) => {
            store.find(table, version).is_err()
        }
        _ => false,
    };
    refused_otherwise([6, 11], missing, call, store)
}

fn table_cut(call: &Call, store: &[u8]) -> Left {
    let mut cut = call.clone();
    if let Some(table) = named(&mut cut).0 {
        *table &= 0xFF;
    }
    right(&cut, store)
}

fn version_cut(call: &Call, store: &[u8]) -> Left {
    let mut cut = call.clone();
    if let Some(version) = named(&mut cut).1 {
        *version &= 0xFFFF_FFFF;
    }
    right(&cut, store)
}

/// The newest version takes the old contents.
fn return_overwrites(call: &Call, store: &[u8]) -> Left {
    let left = right(call, store);
    let (&Call::Return { table, version }, Ok(_)) = (call, left.answer) else {
        return left;
    };
    let mut after = Store::from_bytes(store).unwrap();
    let setting = after.find(table, version).unwrap().setting.clone();
    let versions = after.tables.get_mut(&table).unwrap();
    let newest = versions.iter_mut().max_by_key(|one| one.number).unwrap();
    newest.setting = setting;
    Left {
        answer: Ok(newest.number),
        store: after.bytes(),
        buffer: Vec::new(),
    }
}

fn read_one_more(call: &Call, store: &[u8]) -> Left {
    let mut left = right(call, store);
    if let (Call::Read { .. }, Ok(length)) = (call, left.answer) {
        if let Some(behind) = left.buffer.get_mut(length as usize) {
            *behind = 0;
        }
    }
    left
}

fn exact_buffer_refused(call: &Call, store: &[u8]) -> Left {
    let left = right(call, store);
    match call {
        Call::Read { buffer, .. } if left.answer == Ok(buffer.len() as u64) => {
            only(Err(8), call, store)
        }
        _ => left,
    }
}

fn short_buffer_filled(call: &Call, store: &[u8]) -> Left {
    let mut left = right(call, store);
    if let (&Call::Read { table, version, .. }, Err(8)) = (call, left.answer) {
        let text = Lent::new(store).read(table, version, usize::MAX).unwrap();
        let room = left.buffer.len();
        left.buffer.copy_from_slice(&text[..room]);
    }
    left
}

/// A store of wrong shape is taken if its places are right once each is put
/// right in one respect.
fn put_right(respect: fn(&mut [u8]), call: &Call, store: &[u8]) -> Left {
    let mut other = store.to_vec();
    other.chunks_exact_mut(PLACE_SIZE).for_each(respect);
    match Store::from_bytes(&other) {
        Some(_) if *call != Call::Fresh => right(call, &other),
        _ => right(call, store),
    }
}

fn place_without_number_free(call: &Call, store: &[u8]) -> Left {
    let respect = |place: &mut [u8]| {
        if place.starts_with(&[0; 8]) {
            place.fill(0);
        }
    };
    put_right(respect, call, store)
}

fn great_number_taken(call: &Call, store: &[u8]) -> Left {
    let respect = |place: &mut [u8]| {
        let number = place
            .first_chunk()
            .map(|number| u64::from_le_bytes(*number));
        if number > Some(MAX_VERSION) {
            place[6..8].fill(0);
        }
    };
    put_right(respect, call, store)
}

fn table_not_judged(call: &Call, store: &[u8]) -> Left {
    put_right(|place| place[8] %= 64, call, store)
}

fn kind_not_judged(call: &Call, store: &[u8]) -> Left {
    put_right(|place| place[9] %= 4, call, store)
}

fn address_not_judged(call: &Call, store: &[u8]) -> Left {
    let respect = |place: &mut [u8]| {
        let kind = KINDS.get(place[9] as usize);
        if kind.is_some_and(|kind| !kind.allows(place[10].into())) {
            place[10] = 0;
        }
    };
    put_right(respect, call, store)
}

fn spare_byte_not_judged(call: &Call, store: &[u8]) -> Left {
    put_right(|place| place[11] = 0, call, store)
}

fn rest_not_judged(call: &Call, store: &[u8]) -> Left {
    let respect = |place: &mut [u8]| {
        if let Some(kind) = KINDS.get(place[9] as usize) {
            place[12 + kind.registers().count()..].fill(0);
        }
    };
    put_right(respect, call, store)
}

fn longer_store_taken(call: &Call, store: &[u8]) -> Left {
    let (head, tail) = store.split_at(store.len().min(SIZE));
    let mut left = right(call, head);
    left.store.extend(tail);
    left
}

/// The right answer to a save of another text.
fn with_text(other: impl FnOnce(&str) -> String, call: &Call, store: &[u8]) -> Left {
    let mut call = call.clone();
    if let Call::Save { text, .. } = &mut call {
        if let Ok(before) = std::str::from_utf8(text) {
            *text = other(before).into_bytes();
        }
    }
    right(&call, store)
}

fn line_feed_may_lack(call: &Call, store: &[u8]) -> Left {
    with_text(
        |text| format!("{}\n", text.trim_end_matches('\n')),
        call,
        store,
    )
}

fn carriage_return_taken(call: &Call, store: &[u8]) -> Left {
    with_text(|text| text.replace("\r\n", "\n"), call, store)
}

fn leading_zero_taken(call: &Call, store: &[u8]) -> Left {
    with_text(|text| text.replace("=01", "=1"), call, store)
}

fn sixteen_digits_taken(call: &Call, store: &[u8]) -> Left {
    with_text(|text| text.replace("=1000000000009635", "=1"), call, store)
}

/// Behind the eight lines of a blinker.
fn lines_behind_taken(call: &Call, store: &[u8]) -> Left {
    let eight = |text: &str| match text.starts_with("chip=95") {
        true => text.split_inclusive('\n').take(8).collect(),
        false => text.to_string(),
    };
    with_text(eight, call, store)
}

fn register_cut(call: &Call, store: &[u8]) -> Left {
    with_text(|text| text.replace("=256\n", "=0\n"), call, store)
}

/// The shortest setting has eight lines.
fn has_few_lines(call: &Call) -> bool {
    let lines = |text: &[u8]| text.iter().filter(|&&byte| byte == b'\n').count();
    matches!(call, Call::Save { text, .. } if lines(text) < 8)
}

fn chip_needs_lines(call: &Call, store: &[u8]) -> Left {
    refused_otherwise([1, 4], has_few_lines(call), call, store)
}

fn address_needs_lines(call: &Call, store: &[u8]) -> Left {
    refused_otherwise([2, 4], has_few_lines(call), call, store)
}

#[test]
fn without_a_fault_nothing_is_found_and_every_code_occurs() {
    let outcome = compare(right, 1, ENOUGH_SEEDS, CALLS);
    assert!(outcome.mismatch.is_none());
    assert_eq!(outcome.sequences, ENOUGH_SEEDS);
    assert_eq!(outcome.calls, ENOUGH_SEEDS * CALLS);
    assert_eq!(outcome.unmet(), []);
}

#[test]
fn each_fault_is_found() {
    for (name, fault) in FAULTS.into_iter().chain(keep::FAULTS) {
        let outcome = compare(fault, 1, ENOUGH_SEEDS, CALLS);
        assert!(outcome.mismatch.is_some(), "{name}");
    }
}

/// What shows the fault stays: both places that hold the version read.
#[test]
fn places_that_a_failure_needs_stay() {
    let mismatch = compare(last_of_two_read, 1, ENOUGH_SEEDS, CALLS).mismatch;
    let (_, store) = shorten(last_of_two_read, &mismatch.unwrap());
    assert_eq!((places_in_use(&store).len(), store.len()), (2, SIZE));
}
