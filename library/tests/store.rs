//! The store of settings: what is kept, and every byte of it.

mod stores;

use lamptwin::{store_fresh, store_read, store_return, store_save, store_size};
use lamptwin::{SETTING_ROOM, STORE_SIZE};
use stores::*;

#[test]
fn the_size() {
    assert_eq!(store_size(), 10_240);
    assert_eq!(STORE_SIZE, 10_240);
}

/// The README's example.
#[test]
fn a_table_goes_back() -> Result<(), lamptwin::Refused> {
    let mut store = vec![0; lamptwin::store_size()];
    lamptwin::store_fresh(&mut store)?;
    let board = b"chip=9551\naddr=5\nr1=255\nr2=128\nr3=255\nr4=128\nr5=85\nr6=85\n";
    assert_eq!(lamptwin::store_save(&mut store, 12, board), Ok(1));
    assert_eq!(lamptwin::store_return(&mut store, 12, 1), Ok(2));
    let mut text = [0; lamptwin::SETTING_ROOM];
    let length = lamptwin::store_read(&store, 12, 2, &mut text)?;
    assert_eq!(&text[..length], board);
    assert_eq!(lamptwin::store_keep(&mut store, &[]), Ok(1));
    assert_eq!(lamptwin::store_save(&mut store, 12, board), Ok(3));
    assert_eq!(lamptwin::store_keep(&mut store, &[12, 2]), Ok(0));
    Ok(())
}

#[test]
fn a_fresh_store_has_zeros() {
    for mut store in [vec![255; STORE_SIZE], store_of(&[numbered(1)]), full()] {
        assert_eq!(store_fresh(&mut store), Ok(()));
        assert!(store == [0; 10_240]);
    }
}

#[test]
fn settings_of_fresh_boards_are_kept_whole() {
    let mut store = fresh();
    for (number, (text, _)) in (1..).zip(FRESH_BOARDS) {
        assert_eq!(store_save(&mut store, 0, text), Ok(number));
    }
    for (number, (text, length)) in (1..).zip(FRESH_BOARDS) {
        assert_eq!(text.len(), length);
        assert_eq!(read(&store, 0, number), text);
    }
}

/// 10 bytes of chip, 9 of address, 7 for each of r0 to r9, 8 for each of r10 to r27. Bits that a
/// board shows otherwise are kept too.
#[test]
fn the_longest_setting_is_kept_whole() {
    let registers: String = (0..28).map(|n| format!("r{n}=255\n")).collect();
    let text = format!("chip=9635\naddr=127\n{registers}").into_bytes();
    assert_eq!(text.len(), 233);
    assert_eq!(SETTING_ROOM, 233);
    let mut store = fresh();
    assert_eq!(store_save(&mut store, 63, &text), Ok(1));
    assert_eq!(read(&store, 63, 1), text);
}

#[test]
fn every_value_of_a_register_is_kept() {
    let mut store = fresh();
    for value in 0..=255 {
        assert_eq!(store_save(&mut store, 1, &blinker(value)), Ok(value + 1));
    }
    for value in 0..=255 {
        assert_eq!(read(&store, 1, value + 1), blinker(value));
    }
}

/// Version 1 of table 5, kind 3, pins 5, r1 to r6; the places behind the first are free.
#[test]
fn the_bytes_of_a_store() {
    let mut store = fresh();
    assert_eq!(store_save(&mut store, 5, PCA9551), Ok(1));
    #[rustfmt::skip]
    let first_place = [
        1, 0, 0, 0, 0, 0, 0, 0,
        5, 3, 5, 0,
        255, 128, 255, 128, 85, 85,
        0, 0, 0, 0, 0, 0, 0, 0, 0, 0, 0, 0, 0, 0, 0, 0, 0, 0, 0, 0, 0, 0,
    ];
    assert_eq!(store[..40], first_place);
    assert!(store[40..] == [0; 10_200]);
}

#[test]
fn the_bytes_of_each_kind() {
    #[rustfmt::skip]
    let registers: [&[u8]; 4] = [
        &[145, 5, 0, 0, 0, 0, 0, 0, 0, 0, 0, 0, 0, 0, 0, 0, 0, 0, 255, 0, 0, 0, 0, 0, 226, 228, 232, 224],
        &[145, 5, 0, 0, 0, 0, 0, 0, 0, 0, 255, 0, 0, 0, 226, 228, 232, 224],
        &[0, 128, 0, 128, 0, 0],
        &[255, 128, 255, 128, 85, 85],
    ];
    let mut store = fresh();
    for (text, _) in FRESH_BOARDS {
        store_save(&mut store, 63, text).unwrap();
    }
    let places = [
        place(1, 63, 0, 21, registers[0]),
        place(2, 63, 1, 21, registers[1]),
        place(3, 63, 2, 5, registers[2]),
        place(4, 63, 3, 5, registers[3]),
    ];
    assert!(store == store_of(&places));
}

/// As another program may have written it: two places are free before the one in use.
#[test]
fn the_lowest_free_place_is_taken() {
    let mut store = store_of(&[vec![0; PLACE], vec![0; PLACE], numbered(256)]);
    assert_eq!(store_save(&mut store, 5, NUMBERED), Ok(257));
    assert_eq!(store_return(&mut store, 5, 256), Ok(258));
    assert_eq!(store_save(&mut store, 5, NUMBERED), Ok(259));
    let places = [257, 258, 256, 259].map(numbered);
    assert!(store == store_of(&places));
}

#[test]
fn versions_count_by_table() {
    let mut store = fresh();
    let saves = [(0, 1, 1), (63, 2, 1), (0, 3, 2), (0, 3, 3), (63, 4, 2)];
    for (table, value, number) in saves {
        let saved = store_save(&mut store, table, &blinker(value));
        assert_eq!(saved, Ok(number), "table {table}");
    }
    for (table, value, number) in saves {
        assert_eq!(read(&store, table, number), blinker(value));
    }
}

#[test]
fn a_return_is_a_new_version_and_alters_nothing() {
    let mut store = fresh();
    for (table, value) in [(4, 1), (8, 99), (4, 2), (4, 3)] {
        store_save(&mut store, table, &blinker(value)).unwrap();
    }
    let before = store.clone();
    assert_eq!(store_return(&mut store, 4, 1), Ok(4));
    assert_eq!(store[160..168], [4, 0, 0, 0, 0, 0, 0, 0]);
    assert_eq!(store[168..200], before[8..40]);
    assert!(store[..160] == before[..160]);
    assert!(store[200..] == before[200..]);
    for (number, value) in [(1, 1), (2, 2), (3, 3), (4, 1)] {
        assert_eq!(read(&store, 4, number), blinker(value));
    }
    assert_eq!(read(&store, 8, 1), blinker(99));
}

/// To the newest version, and to one that is a return.
#[test]
fn any_version_can_be_returned_to() {
    let mut store = fresh();
    store_save(&mut store, 0, PCA9635).unwrap();
    store_save(&mut store, 0, PCA9551).unwrap();
    for (version, number) in [(2, 3), (1, 4), (4, 5), (3, 6)] {
        assert_eq!(store_return(&mut store, 0, version), Ok(number));
        assert_eq!(read(&store, 0, number), read(&store, 0, version));
    }
    assert_eq!(read(&store, 0, 5), PCA9635);
    assert_eq!(read(&store, 0, 6), PCA9551);
}

/// The 256th is a save, then a return.
#[test]
fn the_256th_version_is_the_last() {
    let mut store = full();
    let last_place = place(256, 9, 2, 5, &[0, 128, 0, 128, 0, 0]);
    assert_eq!(store[10_200..], last_place);
    for table in [9, 0] {
        assert_eq!(save_refused(&store, table, PCA9531), 12);
    }
    for version in [1, 256] {
        assert_eq!(return_refused(&store, 9, version), 12);
    }
    assert_eq!(read(&store, 9, 1), blinker(1));
    assert_eq!(read(&store, 9, 256), blinker(0));

    store[10_200..].fill(0);
    let before = store.clone();
    assert_eq!(store_return(&mut store, 9, 7), Ok(256));
    assert!(store[..10_200] == before[..10_200]);
    assert_eq!(read(&store, 9, 256), blinker(7));
    assert_eq!(return_refused(&store, 9, 7), 12);
}

#[test]
fn a_buffer_takes_the_setting_or_stays() {
    let mut store = fresh();
    for (number, (text, length)) in (1..).zip(FRESH_BOARDS) {
        store_save(&mut store, 2, text).unwrap();
        for room in [length, length + 1, SETTING_ROOM] {
            let mut buffer = vec![7; room];
            assert_eq!(store_read(&store, 2, number, &mut buffer), Ok(length));
            assert_eq!(buffer[..length], *text);
            assert!(buffer[length..].iter().all(|&byte| byte == 7));
        }
        for room in [length - 1, 1, 0] {
            assert_eq!(read_refused(&store, 2, number, room), 8);
        }
    }
}

#[test]
fn numbers_end_at_their_limit() {
    for by_return in [false, true] {
        let mut store = store_of(&[numbered(LAST_VERSION - 1)]);
        let number = if by_return {
            store_return(&mut store, 5, LAST_VERSION - 1)
        } else {
            store_save(&mut store, 5, NUMBERED)
        };
        assert_eq!(number, Ok(LAST_VERSION));
        assert_eq!(store[40..48], [0, 0, 0, 0, 0, 0, 1, 0]);
        assert_eq!(read(&store, 5, LAST_VERSION), NUMBERED);
        assert_eq!(save_refused(&store, 5, PCA9551), 6);
        assert_eq!(return_refused(&store, 5, LAST_VERSION - 1), 6);
    }
    let mut store = store_of(&[numbered(LAST_VERSION)]);
    assert_eq!(save_refused(&store, 5, PCA9551), 6);
    assert_eq!(return_refused(&store, 5, LAST_VERSION), 6);
    assert_eq!(read(&store, 5, LAST_VERSION), NUMBERED);
    assert_eq!(store_save(&mut store, 6, PCA9551), Ok(1));
}

/// Only another program can write one version twice.
#[test]
fn of_two_places_with_one_version_the_lower_counts() {
    let other = place(1, 5, 3, 0, &[9; 6]);
    let mut store = store_of(&[numbered(1), other]);
    assert_eq!(read(&store, 5, 1), NUMBERED);
    assert_eq!(store_return(&mut store, 5, 1), Ok(2));
    assert_eq!(store[80..120], numbered(2));
}
