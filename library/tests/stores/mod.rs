//! Settings, and stores as bytes: a place has 40, the version's number in 8 of them, lowest first,
//! the table, the kind, the address, a byte 0, and 28 for the registers.
#![allow(dead_code)] // each test program uses a part

use lamptwin::{store_fresh, store_keep, store_read, store_return, store_save};
use lamptwin::{SETTING_ROOM, STORE_SIZE};

pub const PCA9635: &[u8] = include_bytes!("../../../tests/settings/9635.txt");
pub const PCA9634: &[u8] = include_bytes!("../../../tests/settings/9634.txt");
pub const PCA9531: &[u8] = include_bytes!("../../../tests/settings/9531.txt");
pub const PCA9551: &[u8] = include_bytes!("../../../tests/settings/9551.txt");

/// The settings of fresh boards and their lengths, by the kind's byte in a store.
pub const FRESH_BOARDS: [(&[u8], usize); 4] =
    [(PCA9635, 188), (PCA9634, 128), (PCA9531, 51), (PCA9551, 57)];

pub const PLACE: usize = 40;
pub const PLACES: u64 = 256;

pub const LAST_VERSION: u64 = 1 << 48;

pub fn fresh() -> Vec<u8> {
    let mut store = vec![7; STORE_SIZE];
    assert_eq!(store_fresh(&mut store), Ok(()));
    store
}

/// A place in use.
pub fn place(version: u64, table: u8, kind: u8, address: u8, registers: &[u8]) -> Vec<u8> {
    let mut place = version.to_le_bytes().to_vec();
    place.extend([table, kind, address, 0]);
    place.extend(registers);
    place.resize(PLACE, 0);
    place
}

/// A store with these places in front, and free ones behind them.
pub fn store_of(places: &[Vec<u8>]) -> Vec<u8> {
    let mut store = places.concat();
    store.resize(STORE_SIZE, 0);
    store
}

/// A PCA9531 with the address 6 and the registers 1 to 6, under table 5.
pub fn numbered(version: u64) -> Vec<u8> {
    place(version, 5, 2, 6, &[1, 2, 3, 4, 5, 6])
}

pub const NUMBERED: &[u8] = b"chip=9531\naddr=6\nr1=1\nr2=2\nr3=3\nr4=4\nr5=5\nr6=6\n";

/// The text with another part in place of one that it has once.
pub fn with(text: &[u8], part: &str, other: &str) -> Vec<u8> {
    let text = std::str::from_utf8(text).unwrap();
    assert_eq!(text.matches(part).count(), 1, "{part}");
    text.replace(part, other).into_bytes()
}

/// A fresh PCA9531 but for its last register.
pub fn blinker(last: u64) -> Vec<u8> {
    with(PCA9531, "r6=0", &format!("r6={last}"))
}

/// All places in use, by the versions 1 to 256 of table 9.
pub fn full() -> Vec<u8> {
    let mut store = fresh();
    for number in 1..=PLACES {
        assert_eq!(
            store_save(&mut store, 9, &blinker(number % 256)),
            Ok(number)
        );
    }
    store
}

/// The same, but the first place has the last number that there is.
pub fn full_at_limit() -> Vec<u8> {
    let mut store = full();
    store[..8].copy_from_slice(&LAST_VERSION.to_le_bytes());
    store
}

/// The text of a version. The rest of the buffer stays.
pub fn read(store: &[u8], table: u64, version: u64) -> Vec<u8> {
    let mut buffer = [7; SETTING_ROOM + 1];
    let length = store_read(store, table, version, &mut buffer).unwrap();
    assert!(buffer[length..].iter().all(|&byte| byte == 7));
    buffer[..length].to_vec()
}

/// The number that a save is refused with. Every byte stays.
pub fn save_refused(store: &[u8], table: u64, setting: &[u8]) -> u64 {
    let mut after = store.to_vec();
    let refused = store_save(&mut after, table, setting).unwrap_err();
    assert!(after == store, "a refused save writes nothing");
    refused.code
}

/// The same of a return.
pub fn return_refused(store: &[u8], table: u64, version: u64) -> u64 {
    let mut after = store.to_vec();
    let refused = store_return(&mut after, table, version).unwrap_err();
    assert!(after == store, "a refused return writes nothing");
    refused.code
}

/// The same of a keep.
pub fn keep_refused(store: &[u8], list: &[u64]) -> u64 {
    let mut after = store.to_vec();
    let refused = store_keep(&mut after, list).unwrap_err();
    assert!(after == store, "a refused keep writes nothing");
    refused.code
}

/// The same of a read to a buffer of so many bytes.
pub fn read_refused(store: &[u8], table: u64, version: u64, room: usize) -> u64 {
    let mut buffer = vec![7; room];
    let refused = store_read(store, table, version, &mut buffer).unwrap_err();
    assert!(buffer.iter().all(|&byte| byte == 7));
    refused.code
}
