//! The store of settings: what each call is refused with. A refused call leaves every byte.

mod stores;

use lamptwin::{store_fresh, store_return, store_save};
use lamptwin::{Refused, SETTING_ROOM};
use stores::*;

#[test]
fn a_fresh_store_has_its_size() {
    for size in [0, 1, 10_239, 10_241, 20_480] {
        let mut store = vec![7; size];
        assert_eq!(store_fresh(&mut store), Err(Refused { code: 4 }));
        assert!(store.iter().all(|&byte| byte == 7));
    }
}

#[test]
fn unknown_kinds() {
    for chip in [0, 9530, 9636, 75_171, 999_999_999_999_999_u64] {
        let text = with(PCA9531, "chip=9531", &format!("chip={chip}"));
        assert_eq!(save_refused(&fresh(), 0, &text), 1, "{chip}");
    }
}

fn assert_addresses(text: &[u8], line: &str, barred: &[u64], allowed: &[u64]) {
    let at = |address: &u64| with(text, line, &format!("addr={address}"));
    for address in barred {
        assert_eq!(save_refused(&fresh(), 0, &at(address)), 2, "{address}");
    }
    for address in allowed {
        let mut store = fresh();
        assert_eq!(store_save(&mut store, 0, &at(address)), Ok(1), "{address}");
        assert_eq!(read(&store, 0, 1), at(address));
    }
}

/// 256, 261 and 277 are allowed addresses in their lowest eight bits.
#[test]
fn addresses() {
    for text in [PCA9635, PCA9634] {
        let barred = [3, 112, 128, 255, 256, 277];
        assert_addresses(text, "addr=21", &barred, &[0, 2, 4, 111, 113, 127]);
    }
    for text in [PCA9531, PCA9551] {
        let barred = [8, 96, 101, 128, 256, 261];
        assert_addresses(text, "addr=5", &barred, &[0, 1, 2, 3, 4, 5, 6, 7]);
    }
}

#[test]
fn a_register_has_a_byte() {
    let rows: [(&[u8], &str, &str); 6] = [
        (PCA9635, "r0=145\n", "r0="),
        (PCA9635, "r27=224\n", "r27="),
        (PCA9634, "r17=224\n", "r17="),
        (PCA9531, "r1=0\n", "r1="),
        (PCA9531, "r6=0\n", "r6="),
        (PCA9551, "r5=85\n", "r5="),
    ];
    for (text, line, key) in rows {
        let at = |value: u64| with(text, line, &format!("{key}{value}\n"));
        assert_eq!(store_save(&mut fresh(), 0, &at(255)), Ok(1), "{key}");
        for value in [256, 257, 511, 65_536, 4_294_967_296] {
            assert_eq!(save_refused(&fresh(), 0, &at(value)), 4, "{key}{value}");
        }
    }
}

#[test]
fn settings_of_wrong_shape() {
    let edits = [
        ("chip=9531\n", ""),
        ("chip=9531\naddr=5\n", "addr=5\nchip=9531\n"),
        ("chip=9531\n", "chip=9531 "),
        ("chip=", "Chip="),
        ("chip=9531", "chip=09531"),
        ("chip=9531", "chip=1000000000009531"),
        ("addr=5\n", ""),
        ("addr=5", "addr=05"),
        ("addr=5", "addr="),
        ("r1=", "r0=255\nr1="),
        ("r3=0\n", ""),
        ("r3=0\n", "r3=0\nr3=0\n"),
        ("r5=0\nr6=0\n", "r6=0\nr5=0\n"),
        ("r2=128", "r2=0128"),
        ("r2=128", "r2= 128"),
        ("r2=128", "r2=-128"),
        ("r2=", "r02="),
        ("r6=0\n", "r6=0\nr7=0\n"),
        ("r6=0\n", "r6=0"),
        ("r6=0\n", "r6=0\r\n"),
        ("r6=0\n", "r6=0\n\n"),
        ("r6=0\n", "r6=0\n\0"),
        ("r6=0\n", ""),
    ];
    for (part, other) in edits {
        let text = with(PCA9531, part, other);
        assert_eq!(save_refused(&fresh(), 0, &text), 4, "{other:?}");
    }
    let two = [PCA9531, PCA9531].concat();
    let cut = &PCA9635[..187];
    for text in [b"".as_slice(), b"\n", cut, &two] {
        assert_eq!(save_refused(&fresh(), 0, text), 4);
    }
}

/// 256 and 2^32 + 63 are tables in their lowest bits.
#[test]
fn there_are_64_tables() {
    let mut store = fresh();
    assert_eq!(store_save(&mut store, 0, PCA9531), Ok(1));
    assert_eq!(store_save(&mut store, 63, PCA9531), Ok(1));
    assert_eq!(store_return(&mut store, 63, 1), Ok(2));
    for table in [64, 256, (1 << 32) + 63, u64::MAX] {
        assert_eq!(save_refused(&store, table, PCA9531), 11);
        assert_eq!(return_refused(&store, table, 1), 11);
        assert_eq!(read_refused(&store, table, 1, SETTING_ROOM), 11);
        assert_eq!(keep_refused(&store, &[table, 1]), 11);
    }
}

/// In a table that has one version, and in one that has none.
#[test]
fn versions_that_were_never_written() {
    let mut store = fresh();
    store_save(&mut store, 1, PCA9531).unwrap();
    let missing = [
        (1, 0),
        (1, 2),
        (1, 257),
        (1, u64::MAX),
        (2, 0),
        (2, 1),
        (0, 0),
    ];
    for (table, version) in missing {
        assert_eq!(return_refused(&store, table, version), 11);
        assert_eq!(read_refused(&store, table, version, SETTING_ROOM), 11);
        assert_eq!(keep_refused(&store, &[table, version]), 11);
    }
}

#[test]
fn stores_of_wrong_size() {
    for size in [0, 40, 10_239, 10_241, 20_480] {
        let mut store = store_of(&[numbered(1)]);
        store.resize(size, 0);
        assert_eq!(save_refused(&store, 5, PCA9531), 4, "{size}");
        assert_eq!(return_refused(&store, 5, 1), 4, "{size}");
        assert_eq!(read_refused(&store, 5, 1, SETTING_ROOM), 4, "{size}");
        assert_eq!(keep_refused(&store, &[]), 4, "{size}");
    }
}

/// A store whose version 1 of table 5 stands in the first place, and this in the last.
fn with_last_place(last: &[u8]) -> Vec<u8> {
    let mut store = store_of(&[numbered(1)]);
    store[10_200..].copy_from_slice(last);
    store
}

/// A place with a byte changed.
fn changed(mut place: Vec<u8>, at: usize, byte: u8) -> Vec<u8> {
    place[at] = byte;
    place
}

#[test]
fn places_of_right_shape() {
    let right = [
        vec![0; PLACE],
        numbered(1),
        numbered(LAST_VERSION),
        place(1, 0, 0, 127, &[255; 28]),
        place(1, 63, 1, 0, &[255; 18]),
        place(1, 0, 2, 7, &[255; 6]),
        place(1, 0, 3, 0, &[0; 6]),
    ];
    for last in right {
        assert_eq!(read(&with_last_place(&last), 5, 1), NUMBERED, "{last:?}");
    }
}

#[test]
fn places_of_wrong_shape() {
    let free = vec![0; PLACE];
    let wrong = [
        // free but for a byte: of the table, the kind, the address, the spare one, the registers
        changed(free.clone(), 8, 5),
        changed(free.clone(), 9, 1),
        changed(free.clone(), 10, 1),
        changed(free.clone(), 11, 1),
        changed(free.clone(), 12, 1),
        changed(free, 39, 1),
        numbered(0),
        // in use, with a number above 2^48
        numbered(LAST_VERSION + 1),
        numbered(1 << 56),
        numbered(u64::MAX),
        // with a table, a kind, a spare byte that there is not
        changed(numbered(1), 8, 64),
        changed(numbered(1), 8, 255),
        changed(numbered(1), 9, 4),
        changed(numbered(1), 9, 255),
        changed(numbered(1), 11, 1),
        // with a barred address
        place(1, 0, 0, 3, &[]),
        place(1, 0, 0, 112, &[]),
        place(1, 0, 0, 128, &[]),
        place(1, 0, 1, 3, &[]),
        place(1, 0, 1, 112, &[]),
        place(1, 0, 1, 255, &[]),
        place(1, 0, 2, 8, &[]),
        place(1, 0, 3, 8, &[]),
        // with a byte behind the registers
        changed(place(1, 0, 1, 21, &[]), 30, 1),
        changed(place(1, 0, 1, 21, &[]), 39, 1),
        changed(numbered(1), 18, 1),
        changed(numbered(1), 39, 1),
        changed(place(1, 0, 3, 0, &[]), 18, 1),
    ];
    for last in wrong {
        let store = with_last_place(&last);
        assert_eq!(save_refused(&store, 5, PCA9531), 4, "{last:?}");
        assert_eq!(return_refused(&store, 5, 1), 4, "{last:?}");
        assert_eq!(read_refused(&store, 5, 1, SETTING_ROOM), 4, "{last:?}");
        assert_eq!(keep_refused(&store, &[]), 4, "{last:?}");
        // and as the place that would be read, returned to or kept
        let store = store_of(&[last]);
        assert_eq!(save_refused(&store, 5, PCA9531), 4);
        assert_eq!(return_refused(&store, 5, 1), 4);
        assert_eq!(read_refused(&store, 5, 1, SETTING_ROOM), 4);
        assert_eq!(keep_refused(&store, &[5, 1]), 4);
    }
}

/// Texts that are refused with one number, then with two.
const UNKNOWN: &[u8] = b"chip=1\naddr=5\nr1=0\nr2=0\nr3=0\nr4=0\nr5=0\nr6=0\n";
const BARRED: &[u8] = b"chip=9531\naddr=8\nr1=0\nr2=0\nr3=0\nr4=0\nr5=0\nr6=0\n";
const OVER: &[u8] = b"chip=9531\naddr=5\nr1=0\nr2=0\nr3=0\nr4=0\nr5=0\nr6=256\n";
const UNKNOWN_AND_BARRED: &[u8] = b"chip=1\naddr=200\nr1=0\nr2=0\nr3=0\nr4=0\nr5=0\nr6=0\n";
const UNKNOWN_AND_OVER: &[u8] = b"chip=1\naddr=5\nr1=0\nr2=0\nr3=0\nr4=0\nr5=0\nr6=256\n";
const UNKNOWN_AND_CUT: &[u8] = b"chip=1\n";
const BARRED_AND_OVER: &[u8] = b"chip=9531\naddr=8\nr1=0\nr2=0\nr3=0\nr4=0\nr5=0\nr6=256\n";
const BARRED_AND_CUT: &[u8] = b"chip=9531\naddr=8\n";

/// Behind a row stand the other numbers that hold, or would hold of the lines behind the refused
/// one. 6 and 11 cannot hold at once: a table above 63 has no versions.
#[test]
fn the_least_refusal_of_a_save_is_given() {
    let one = store_of(&[numbered(1)]);
    let wrong = changed(one.clone(), 11, 1);
    let limit = store_of(&[numbered(LAST_VERSION)]);
    let (full, both) = (full(), full_at_limit());
    let rows: [(&[u8], u64, &[u8], u64); 27] = [
        (&one, 5, UNKNOWN, 1),
        (&one, 5, BARRED, 2),
        (&one, 5, OVER, 4),
        (&wrong, 5, PCA9531, 4),
        (&limit, 5, PCA9531, 6),
        (&one, 64, PCA9531, 11),
        (&full, 5, PCA9531, 12),
        (&one, 5, UNKNOWN_AND_BARRED, 1),            // 2
        (&one, 5, UNKNOWN_AND_OVER, 1),              // 4
        (&one, 5, UNKNOWN_AND_CUT, 1),               // 4
        (&wrong, 5, UNKNOWN, 1),                     // 4
        (&limit, 5, UNKNOWN, 1),                     // 6
        (&one, 64, UNKNOWN, 1),                      // 11
        (&full, 5, UNKNOWN, 1),                      // 12
        (&one, 5, BARRED_AND_OVER, 2),               // 4
        (&one, 5, BARRED_AND_CUT, 2),                // 4
        (&wrong, 5, BARRED, 2),                      // 4
        (&limit, 5, BARRED, 2),                      // 6
        (&one, 64, BARRED, 2),                       // 11
        (&full, 5, BARRED, 2),                       // 12
        (&limit, 5, OVER, 4),                        // 6
        (&one, 64, OVER, 4),                         // 11
        (&wrong, 64, PCA9531, 4),                    // 11
        (&full, 5, OVER, 4),                         // 12
        (&both, 9, PCA9531, 6),                      // 12
        (&full, 64, PCA9531, 11),                    // 12
        (&wrong[..10_239], 64, UNKNOWN_AND_OVER, 1), // 4, 11
    ];
    for (row, (store, table, setting, code)) in rows.into_iter().enumerate() {
        assert_eq!(save_refused(store, table, setting), code, "row {row}");
    }
}

#[test]
fn the_least_refusal_of_a_return_is_given() {
    let one = store_of(&[numbered(1)]);
    let wrong = changed(one.clone(), 11, 1);
    let limit = store_of(&[numbered(LAST_VERSION)]);
    let wrong_limit = changed(limit.clone(), 11, 1);
    let (full, both) = (full(), full_at_limit());
    let wrong_full = changed(full.clone(), 11, 1);
    let rows: [(&[u8], u64, u64, u64); 14] = [
        (&wrong, 5, 1, 4),
        (&limit, 5, LAST_VERSION, 6),
        (&one, 64, 1, 11),
        (&one, 5, 2, 11),
        (&full, 9, 1, 12),
        (&wrong_limit, 5, LAST_VERSION, 4), // 6
        (&wrong, 64, 1, 4),                 // 11
        (&wrong, 5, 2, 4),                  // 11
        (&wrong_full, 9, 2, 4),             // 12
        (&limit, 5, 1, 6),                  // 11
        (&both, 9, 2, 6),                   // 12
        (&both, 9, 1, 6),                   // 11, 12
        (&full, 9, 257, 11),                // 12
        (&full, 64, 1, 11),                 // 12
    ];
    for (row, (store, table, version, code)) in rows.into_iter().enumerate() {
        assert_eq!(return_refused(store, table, version), code, "row {row}");
    }
}

/// Behind a row stand the other numbers that hold. 8 and 11 cannot hold at once: a buffer is too
/// short for a version only where there is one.
#[test]
fn the_least_refusal_of_a_read_is_given() {
    let one = store_of(&[numbered(1)]);
    let wrong = with_last_place(&changed(vec![0; PLACE], 39, 1));
    let rows: [(&[u8], u64, u64, usize, u64); 9] = [
        (&wrong, 5, 1, SETTING_ROOM, 4),
        (&one, 5, 1, 46, 8),
        (&one, 5, 2, SETTING_ROOM, 11),
        (&one, 64, 1, SETTING_ROOM, 11),
        (&wrong, 5, 1, 0, 4),             // 8
        (&wrong, 5, 2, SETTING_ROOM, 4),  // 11
        (&wrong, 64, 1, SETTING_ROOM, 4), // 11
        (&one, 5, 2, 0, 11),
        (&one, 64, 1, 0, 11),
    ];
    assert_eq!(NUMBERED.len(), 47);
    for (row, (store, table, version, room, code)) in rows.into_iter().enumerate() {
        assert_eq!(read_refused(store, table, version, room), code, "row {row}");
    }
}

#[test]
fn the_least_refusal_of_a_keep_is_given() {
    let one = store_of(&[numbered(1)]);
    let wrong = changed(one.clone(), 11, 1);
    let limit = store_of(&[numbered(LAST_VERSION)]);
    let full = full();
    let rows: [(&[u8], &[u64], u64); 12] = [
        (&wrong, &[], 4),
        (&wrong, &[5, 1], 4),
        (&one, &[5], 4),
        (&one, &[5, 1, 5], 4),
        (&one, &[5, 2], 11),
        (&one, &[64, 1], 11),
        (&limit, &[5, 1], 11),
        (&full, &[9, 257], 11),
        (&wrong, &[5, 2], 4),                // 11
        (&wrong, &[64, 1], 4),               // 11
        (&one, &[5, 2, 5], 4),               // 11
        (&wrong[..10_239], &[64, 1, 64], 4), // 11
    ];
    for (row, (store, list, code)) in rows.into_iter().enumerate() {
        assert_eq!(keep_refused(store, list), code, "row {row}");
    }
}

#[test]
fn a_refusal_says_why() {
    let refused = store_save(&mut full(), 0, PCA9531).unwrap_err();
    assert_eq!(refused.to_string(), "refused with 12: the store is full");
    let mut reasons: Vec<String> = [1, 2, 4, 6, 8, 11, 12, 3]
        .map(|code| Refused { code }.to_string())
        .map(|text| text.split_once(": ").unwrap().1.to_string())
        .to_vec();
    reasons.sort();
    reasons.dedup();
    assert_eq!(reasons.len(), 8);
}
