//! The store of settings: room that is made in it. What is kept stays where it is, with every byte,
//! and a freed place is 40 zeros.

mod stores;

use lamptwin::{store_keep, store_return, store_save};
use lamptwin::{SETTING_ROOM, STORE_SIZE};
use stores::*;

fn free() -> Vec<u8> {
    vec![0; PLACE]
}

/// A PCA9551 whose registers go by the table and the version.
fn held(table: u8, version: u8) -> Vec<u8> {
    place(version.into(), table, 3, 5, &[table, version, 0, 255, 1, 2])
}

/// The store with these places free.
fn without(mut store: Vec<u8>, places: impl IntoIterator<Item = usize>) -> Vec<u8> {
    for place in places {
        store[place * PLACE..(place + 1) * PLACE].fill(0);
    }
    store
}

/// A keep that is done on these places, and what it leaves there.
fn assert_kept(before: &[Vec<u8>], list: &[u64], freed: u64, after: &[Vec<u8>]) {
    let mut store = store_of(before);
    assert_eq!(store_keep(&mut store, list), Ok(freed), "{list:?}");
    assert!(store == store_of(after), "{list:?}");
}

/// A version that is gone: it is neither read, nor returned to, nor kept.
fn assert_gone(store: &[u8], table: u64, version: u64) {
    assert_eq!(read_refused(store, table, version, SETTING_ROOM), 11);
    assert_eq!(return_refused(store, table, version), 11);
    assert_eq!(keep_refused(store, &[table, version]), 11);
}

#[test]
fn all_but_the_newest_of_a_table_are_freed() {
    let mut store = fresh();
    for number in 1..=4 {
        assert_eq!(store_save(&mut store, 5, NUMBERED), Ok(number));
    }
    assert_eq!(store_keep(&mut store, &[]), Ok(3));
    assert!(store == store_of(&[free(), free(), free(), numbered(4)]));
    assert_eq!(read(&store, 5, 4), NUMBERED);
    for version in 1..=3 {
        assert_gone(&store, 5, version);
    }
}

#[test]
fn one_version_is_the_newest() {
    assert_kept(&[numbered(1)], &[], 0, &[numbered(1)]);
    assert_kept(&[numbered(1)], &[5, 1], 0, &[numbered(1)]);
    let last_place = [vec![free(); 255], vec![held(63, 200)]].concat();
    assert_kept(&last_place, &[], 0, &last_place);
}

#[test]
fn an_empty_store_has_nothing_to_free() {
    let mut store = fresh();
    assert_eq!(store_keep(&mut store, &[]), Ok(0));
    assert!(store == [0; STORE_SIZE]);
    for pair in [[0, 0], [0, 1], [5, 1], [63, 1]] {
        assert_eq!(keep_refused(&store, &pair), 11);
    }
    assert_eq!(store_save(&mut store, 5, NUMBERED), Ok(1));
}

/// Two versions of table 0, three of 7, one of 63.
fn three_tables() -> [Vec<u8>; 6] {
    [(7, 1), (0, 1), (7, 2), (63, 1), (0, 2), (7, 3)].map(|(table, version)| held(table, version))
}

/// Behind a list stand the places that it frees. A second keep frees nothing more.
#[test]
fn the_newest_and_those_listed_stay() {
    let rows: [(&[u64], &[usize]); 14] = [
        (&[], &[0, 1, 2]),
        (&[7, 1], &[1, 2]),
        (&[7, 2], &[0, 1]),
        (&[0, 1], &[0, 2]),
        (&[7, 1, 0, 1], &[2]),
        (&[0, 1, 7, 2], &[0]),
        (&[7, 2, 7, 1], &[1]),
        (&[7, 2, 0, 1, 7, 1], &[]),
        // the newest, and one more
        (&[7, 3], &[0, 1, 2]),
        (&[0, 2, 7, 3, 63, 1], &[0, 1, 2]),
        (&[63, 1, 7, 1], &[1, 2]),
        // a pair again
        (&[7, 1, 7, 1], &[1, 2]),
        (&[0, 2, 0, 1, 0, 2, 0, 1, 0, 1], &[0, 2]),
        // all
        (&[0, 1, 0, 2, 7, 1, 7, 2, 7, 3, 63, 1], &[]),
    ];
    for (list, freed) in rows {
        let before = store_of(&three_tables());
        let after = without(before.clone(), freed.iter().copied());
        let mut store = before;
        assert_eq!(store_keep(&mut store, list), Ok(freed.len() as u64));
        assert!(store == after, "{list:?}");
        assert_eq!(store_keep(&mut store, list), Ok(0), "{list:?}");
        assert!(store == after, "{list:?}");
    }
}

/// Neither the other way round, nor of another table.
#[test]
fn a_pair_is_a_table_then_a_version() {
    let both = [(1, 1), (1, 2), (1, 3), (2, 1), (2, 2), (2, 3)].map(|(t, v)| held(t, v));
    let [_, one_two, newest_one, two_one, _, newest_two] = both.clone();
    #[rustfmt::skip]
    let rows = [
        ([1, 2], [free(), one_two, newest_one.clone(), free(), free(), newest_two.clone()]),
        ([2, 1], [free(), free(), newest_one, two_one, free(), newest_two]),
    ];
    for (list, after) in rows {
        assert_kept(&both, &list, 3, &after);
    }
}

/// As another program may have written it, or saves after a keep.
#[test]
fn the_newest_has_the_greatest_number_not_the_last_place() {
    let mut store = store_of(&[numbered(9), numbered(3), free(), numbered(4)]);
    assert_eq!(store_keep(&mut store, &[]), Ok(2));
    assert!(store == store_of(&[numbered(9)]));
    assert_eq!(store_save(&mut store, 5, NUMBERED), Ok(10));
    assert!(store == store_of(&[numbered(9), numbered(10)]));
}

/// 1, 257 and 2^32 + 1 are one number in their lowest byte.
#[test]
fn numbers_have_eight_bytes() {
    let great = (1 << 32) + 1;
    let before = [257, great, 1, 255].map(numbered);
    let [second, newest, first, last] = before.clone();
    assert_kept(&before, &[], 3, &[free(), newest.clone()]);
    let after = [free(), newest.clone(), first];
    assert_kept(&before, &[5, 1], 2, &after);
    let after = [second, newest.clone()];
    assert_kept(&before, &[5, 257], 2, &after);
    let after = [free(), newest, free(), last];
    assert_kept(&before, &[5, great, 5, 255], 2, &after);
    for version in [2, 256, 513, 1 << 32, great << 8] {
        assert_eq!(keep_refused(&store_of(&before), &[5, version]), 11);
    }
}

/// The first has a byte other than 0 up to its end, the second in its kind too.
#[test]
fn every_byte_of_a_freed_place_is_0() {
    let number = 0x0102_0304_0506;
    let newest = place(number + 2, 63, 3, 7, &[255; 6]);
    let before = [
        place(number, 63, 0, 127, &[255; 28]),
        place(number + 1, 63, 1, 127, &[255; 18]),
        newest.clone(),
    ];
    assert_kept(&before, &[], 2, &[free(), free(), newest]);
}

#[test]
fn every_kind_is_kept_whole() {
    let mut store = fresh();
    for (table, (text, _)) in (10..).zip(FRESH_BOARDS) {
        for (number, text) in (1..).zip([text, PCA9551, PCA9635]) {
            assert_eq!(store_save(&mut store, table, text), Ok(number));
        }
    }
    let after = without(store.clone(), [1, 4, 7, 10]);
    assert_eq!(store_keep(&mut store, &[13, 1, 12, 1, 11, 1, 10, 1]), Ok(4));
    assert!(store == after);
    for (table, (text, _)) in (10..).zip(FRESH_BOARDS) {
        assert_eq!(read(&store, table, 1), text);
        assert_eq!(read(&store, table, 3), PCA9635);
        assert_gone(&store, table, 2);
    }
}

/// Four versions of each table, version by version: 256 places.
fn all_tables() -> Vec<u8> {
    let mut store = fresh();
    for (version, table) in (1..=4).flat_map(|version| (0..64).map(move |table| (version, table))) {
        let saved = store_save(&mut store, table, &blinker(table + version));
        assert_eq!(saved, Ok(version));
    }
    store
}

#[test]
fn each_of_64_tables_has_its_newest() {
    let before = all_tables();
    let mut store = before.clone();
    assert_eq!(store_keep(&mut store, &[]), Ok(192));
    assert!(store[..192 * PLACE] == [0; 192 * PLACE]);
    assert!(store[192 * PLACE..] == before[192 * PLACE..]);
    for table in 0..64 {
        assert_eq!(read(&store, table, 4), blinker(table + 4));
        assert_gone(&store, table, 3);
    }
}

#[test]
fn listed_versions_of_64_tables_stay() {
    let before = all_tables();
    let firsts: Vec<u64> = (0..64).flat_map(|table| [table, 1]).collect();
    let mut store = before.clone();
    assert_eq!(store_keep(&mut store, &firsts), Ok(128));
    assert!(store[..64 * PLACE] == before[..64 * PLACE]);
    assert!(store[64 * PLACE..192 * PLACE] == [0; 128 * PLACE]);
    assert!(store[192 * PLACE..] == before[192 * PLACE..]);

    let pairs = || (0..64).flat_map(|table| (1..=4).map(move |version| [table, version]));
    let all: Vec<u64> = pairs().flatten().collect();
    let in_reverse: Vec<u64> = pairs().rev().flatten().collect();
    for list in [all, in_reverse] {
        let mut store = before.clone();
        assert_eq!(list.len(), 512);
        assert_eq!(store_keep(&mut store, &list), Ok(0));
        assert!(store == before);
    }
}

/// As `full` has it in its places.
fn place_of_full(number: u64) -> Vec<u8> {
    place(number, 9, 2, 5, &[0, 128, 0, 128, 0, number as u8])
}

/// Version 100 stays in place 99 and 256 in place 255. So 257 to 355 go to the places 0 to 98, and
/// 356 to 510 to the places 100 to 254.
#[test]
fn a_full_store_is_filled_again() {
    let mut store = full();
    assert_eq!(store_keep(&mut store, &[9, 100]), Ok(254));
    let mut places = vec![free(); 256];
    places[99] = place_of_full(100);
    places[255] = place_of_full(256);
    assert!(store == places.concat());

    for number in 257..=510 {
        let saved = store_save(&mut store, 9, &blinker(number % 256));
        assert_eq!(saved, Ok(number));
    }
    for (place, number) in (0..99).zip(257..) {
        places[place] = place_of_full(number);
    }
    for (place, number) in (100..255).zip(356..) {
        places[place] = place_of_full(number);
    }
    assert!(store == places.concat());
    for table in [9, 0] {
        assert_eq!(save_refused(&store, table, PCA9531), 12);
    }
    assert_eq!(return_refused(&store, 9, 100), 12);

    // once more: the newest stands in place 254
    assert_eq!(store_keep(&mut store, &[]), Ok(255));
    assert!(store == without(places.concat(), (0..254).chain([255])));
    assert_eq!(store_return(&mut store, 9, 510), Ok(511));
    assert_eq!(read(&store, 9, 511), blinker(254));
    assert_gone(&store, 9, 100);
}

/// Version 17 stood in place 16.
#[test]
fn room_for_one() {
    let mut store = full();
    let list: Vec<u64> = (1..=256)
        .filter(|&number| number != 17)
        .flat_map(|number| [9, number])
        .collect();
    let after = without(store.clone(), [16]);
    assert_eq!(store_keep(&mut store, &list), Ok(1));
    assert!(store == after);
    assert_eq!(store_save(&mut store, 9, &blinker(1)), Ok(257));
    assert_eq!(
        store[640..680],
        place(257, 9, 2, 5, &[0, 128, 0, 128, 0, 1])
    );
    assert!(store[..640] == after[..640] && store[680..] == after[680..]);
    assert_eq!(save_refused(&store, 9, PCA9531), 12);
    assert_gone(&store, 9, 17);
}

/// Places 0, 1 and 2 are freed, and 6 was free before.
#[test]
fn the_lowest_freed_place_takes_the_next_version() {
    let mut store = store_of(&three_tables());
    assert_eq!(store_keep(&mut store, &[]), Ok(3));
    let [.., last_63, last_0, last_7] = three_tables();
    assert_eq!(store_save(&mut store, 5, NUMBERED), Ok(1));
    assert_eq!(store_return(&mut store, 5, 1), Ok(2));
    let places = [numbered(1), numbered(2), free(), last_63, last_0, last_7];
    assert!(store == store_of(&places));
    assert_eq!(store_save(&mut store, 5, NUMBERED), Ok(3));
    assert_eq!(store_save(&mut store, 5, NUMBERED), Ok(4));
    assert_eq!(store[80..120], numbered(3));
    assert_eq!(store[240..280], numbered(4));
}

/// Whichever versions are freed, a table goes on from its newest.
#[test]
fn no_number_is_given_again() {
    let mut store = fresh();
    for (value, number) in [(10, 1), (20, 2), (30, 3)] {
        assert_eq!(store_save(&mut store, 4, &blinker(value)), Ok(number));
    }
    assert_eq!(store_keep(&mut store, &[]), Ok(2));
    assert_eq!(store_save(&mut store, 4, &blinker(40)), Ok(4));
    assert_eq!(store_keep(&mut store, &[]), Ok(1));
    assert_eq!(store_return(&mut store, 4, 4), Ok(5));
    assert_eq!(store_save(&mut store, 4, &blinker(60)), Ok(6));
    assert_eq!(store_keep(&mut store, &[4, 4]), Ok(1));
    assert_eq!(store_return(&mut store, 4, 4), Ok(7));
    assert_eq!(store_save(&mut store, 8, &blinker(1)), Ok(1));
    for version in [1, 2, 3, 5] {
        assert_gone(&store, 4, version);
    }
    for (version, value) in [(4, 40), (6, 60), (7, 40)] {
        assert_eq!(read(&store, 4, version), blinker(value));
    }
}

/// 71, 256, 263 and 2^32 + 63 are tables in their lowest bits.
#[test]
fn a_listed_version_that_is_not_held_frees_nothing() {
    let mut store = store_of(&three_tables());
    let missing = [
        [64, 1],
        [71, 1],
        [256, 1],
        [263, 3],
        [(1 << 32) + 63, 1],
        [u64::MAX, 1],
        [u64::MAX, u64::MAX],
        [7, 0],
        [0, 0], // as the bytes of a free place
        [1, 0],
        [7, 4],
        [0, 3],
        [63, 2],
        [7, 257],
        [7, (1 << 32) + 1],
        [7, LAST_VERSION],
        [7, LAST_VERSION + 1],
        [7, u64::MAX],
        [1, 1],
        [1, 7],
        [3, 7],
        [62, 1],
    ];
    for [table, version] in missing {
        let lists: [&[u64]; 5] = [
            &[table, version],
            &[table, version, 7, 1],
            &[7, 1, table, version, 0, 1],
            &[7, 1, 63, 1, 0, 1, table, version],
            &[table, version, table, version],
        ];
        for list in lists {
            assert_eq!(keep_refused(&store, list), 11, "{list:?}");
        }
    }
    assert_eq!(store_keep(&mut store, &[7, 1]), Ok(2));
    for freed in [[7, 2], [0, 1]] {
        assert_eq!(keep_refused(&store, &freed), 11);
        assert_eq!(keep_refused(&store, &[7, 1, freed[0], freed[1]]), 11);
    }
}

/// Of versions that are all held, and of some that are not.
#[test]
fn a_list_has_an_even_length() {
    let store = full();
    let all: Vec<u64> = (1..=256).flat_map(|number| [9, number]).collect();
    for length in [1, 3, 5, 255, 257, 511] {
        assert_eq!(keep_refused(&store, &all[..length]), 4, "{length}");
        assert_eq!(keep_refused(&store, &all[1..length + 1]), 4, "{length}");
        assert_eq!(keep_refused(&store, &vec![64; length]), 4, "{length}");
        assert_eq!(keep_refused(&store, &vec![0; length]), 4, "{length}");
        assert_eq!(keep_refused(&fresh(), &vec![0; length]), 4, "{length}");
    }
    assert_eq!(keep_refused(&store, &[9, 257, 9]), 4);
    assert_eq!(keep_refused(&store, &[9, 1, 64, 1, u64::MAX]), 4);
}

/// With lists that are right, that have an odd length, and with pairs that are not held.
#[test]
fn a_store_of_wrong_shape_or_size_is_refused() {
    let right = store_of(&three_tables());
    let lists: [&[u64]; 6] = [&[], &[7, 1], &[7], &[7, 1, 0], &[7, 4], &[64, 1]];
    let mut wrong: Vec<Vec<u8>> = [0, 40, 10_239, 10_241, 20_480]
        .map(|size| {
            let mut store = right.clone();
            store.resize(size, 0);
            store
        })
        .to_vec();
    // a spare byte, a table, a number, a byte behind the registers, a free place
    for (at, byte) in [(11, 1), (48, 64), (87, 1), (159, 1), (10_239, 1)] {
        let mut store = right.clone();
        store[at] = byte;
        wrong.push(store);
    }
    for (row, store) in wrong.iter().enumerate() {
        for list in lists {
            assert_eq!(keep_refused(store, list), 4, "row {row}, {list:?}");
        }
    }
}

/// Table 5 has used up its numbers, before a keep and after it; other tables go on.
#[test]
fn a_newest_version_at_the_limit_stays() {
    let other = place(3, 6, 3, 0, &[9; 6]);
    let [first, newest, listed] = [1, LAST_VERSION, 7].map(numbered);
    let mut store = store_of(&[first, newest.clone(), listed.clone(), other.clone()]);
    assert_eq!(save_refused(&store, 5, NUMBERED), 6);
    assert_eq!(return_refused(&store, 5, 1), 6);
    assert_eq!(keep_refused(&store, &[5, LAST_VERSION + 1]), 11);

    assert_eq!(store_keep(&mut store, &[5, 7]), Ok(1));
    assert!(store == store_of(&[free(), newest.clone(), listed, other.clone()]));
    assert_eq!(save_refused(&store, 5, NUMBERED), 6);
    assert_eq!(return_refused(&store, 5, 7), 6);
    assert_eq!(return_refused(&store, 5, 1), 6); // and 11

    assert_eq!(store_keep(&mut store, &[5, LAST_VERSION]), Ok(1));
    assert!(store == store_of(&[free(), newest.clone(), free(), other.clone()]));
    assert_eq!(save_refused(&store, 5, NUMBERED), 6);
    assert_eq!(return_refused(&store, 5, LAST_VERSION), 6);
    assert_eq!(read(&store, 5, LAST_VERSION), NUMBERED);

    assert_eq!(store_return(&mut store, 6, 3), Ok(4));
    assert_eq!(store_save(&mut store, 7, PCA9551), Ok(1));
    let other_again = place(4, 6, 3, 0, &[9; 6]);
    let saved = place(1, 7, 3, 5, &[255, 128, 255, 128, 85, 85]);
    assert!(store == store_of(&[other_again, newest, saved, other]));
}

/// The number that is used up stands in place 0.
#[test]
fn a_full_store_at_the_limit() {
    let mut store = full_at_limit();
    let after = store_of(&[store[..PLACE].to_vec()]);
    assert_eq!(store_keep(&mut store, &[]), Ok(255));
    assert!(store == after);
    assert_eq!(save_refused(&store, 9, PCA9531), 6);
    assert_eq!(return_refused(&store, 9, LAST_VERSION), 6);
    assert_eq!(return_refused(&store, 9, 256), 6); // and 11
    assert_eq!(store_save(&mut store, 8, PCA9531), Ok(1));
}

/// Only another program can write one version twice. The two need not be alike.
#[test]
fn each_place_of_a_version_is_kept_or_freed() {
    let again = |version| place(version, 5, 3, 0, &[9; 6]);
    let two = [numbered(1), again(2), again(1), numbered(2)];
    let newest = [free(), again(2), free(), numbered(2)];
    assert_kept(&two, &[], 2, &newest);
    assert_kept(&two, &[5, 2], 2, &newest);
    assert_kept(&two, &[5, 1], 0, &two);
    assert_kept(&two, &[5, 1, 5, 1, 5, 2], 0, &two);

    let three = [numbered(1), again(2), again(1), numbered(2), numbered(3)];
    let newest = [free(), free(), free(), free(), numbered(3)];
    assert_kept(&three, &[], 4, &newest);
    let with_first = [numbered(1), free(), again(1), free(), numbered(3)];
    assert_kept(&three, &[5, 1], 2, &with_first);
    let with_second = [free(), again(2), free(), numbered(2), numbered(3)];
    assert_kept(&three, &[5, 2], 2, &with_second);
}

#[test]
fn one_version_in_every_place() {
    let mut store = numbered(1).repeat(256);
    let before = store.clone();
    for list in [&[][..], &[5, 1]] {
        assert_eq!(store_keep(&mut store, list), Ok(0));
        assert!(store == before);
    }
    store[128 * PLACE] = 2;
    let after = without(store.clone(), (0..128).chain(129..256));
    assert_eq!(store_keep(&mut store, &[5, 1]), Ok(0));
    assert_eq!(store_keep(&mut store, &[]), Ok(255));
    assert!(store == after);
}

#[test]
fn long_lists() {
    let before = store_of(&three_tables());
    let again = [7, 1].repeat(10_000);
    let mut store = before.clone();
    assert_eq!(store_keep(&mut store, &again), Ok(2));
    assert!(store == without(before.clone(), [1, 2]));
    assert_eq!(store_keep(&mut store, &again), Ok(0));

    let three = [0, 1, 7, 2, 63, 1].repeat(3_334);
    let mut store = before.clone();
    assert_eq!(store_keep(&mut store, &three), Ok(1));
    assert!(store == without(before.clone(), [0]));

    let wrong: [(&[u64], u64); 4] = [(&[7, 4], 11), (&[64, 1], 11), (&[7], 4), (&[7, 4, 7], 4)];
    for (more, code) in wrong {
        let behind = [&again, more].concat();
        assert_eq!(keep_refused(&before, &behind), code);
        let in_front = [more, &again].concat();
        assert_eq!(keep_refused(&before, &in_front), code);
    }
}
