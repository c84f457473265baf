//! The store of table settings: "each save under a table number 0 to 63
//! becomes that table's next version, from 1", and "going back to version k
//! writes a new version with k's contents; nothing earlier is altered". To make
//! room, "keep, for each table, the newest version and those the request
//! lists".
//!
//! What a store holds is kept as plain data, and each version's place with it,
//! so that all bytes of a lent store are foretold.

pub mod calls;
pub mod check;
#[cfg(test)]
mod faults;
mod generate;
pub mod setting;
mod texts;
pub mod timing;

use crate::model::{refuse_if, Answer};
use setting::{Setting, KINDS};
use std::collections::{BTreeMap, BTreeSet};

/// "The store holds 256 versions."
pub const PLACES: usize = 256;
/// A place has 8 bytes of version number, lowest first, a byte each of table,
/// kind and address, a byte 0, and the registers.
pub const PLACE_SIZE: usize = 40;
/// The bytes of a store.
pub const SIZE: usize = PLACES * PLACE_SIZE;
/// Table numbers are below this.
pub const TABLES: u64 = 64;
/// Greatest number of a version.
pub const MAX_VERSION: u64 = 1 << 48;

/// Refusal numbers, besides those of an unknown chip and a barred address.
pub const WRONG_SHAPE: u64 = 4;
pub const NUMBER_LIMIT: u64 = 6;
pub const SHORT_BUFFER: u64 = 8;
pub const NO_VERSION: u64 = 11;
pub const STORE_FULL: u64 = 12;

/// A lent buffer: a store, or bytes of a wrong size or shape.
#[derive(Clone, Debug, PartialEq, Eq)]
pub enum Lent {
    Store(Store),
    Other(Vec<u8>),
}

/// By table, what each version holds. Only a store handed in by others can
/// hold a table's version twice.
#[derive(Clone, Debug, Default, PartialEq, Eq)]
pub struct Store {
    tables: BTreeMap<u64, Vec<Version>>,
}

#[derive(Clone, Debug, PartialEq, Eq)]
pub struct Version {
    number: u64,
    setting: Setting,
    /// Where in the store's bytes it stands.
    place: usize,
}

impl Lent {
    pub fn new(bytes: &[u8]) -> Lent {
        match Store::from_bytes(bytes) {
            Some(store) => Lent::Store(store),
            None => Lent::Other(bytes.to_vec()),
        }
    }

    pub fn bytes(&self) -> Vec<u8> {
        match self {
            Lent::Store(store) => store.bytes(),
            Lent::Other(bytes) => bytes.clone(),
        }
    }

    /// "A call makes a fresh store", whatever the bytes were.
    pub fn make_fresh(&mut self) -> Answer {
        refuse_if(&[(WRONG_SHAPE, self.bytes().len() != SIZE)])?;
        *self = Lent::Store(Store::default());
        Ok(0)
    }

    /// The new version's number. A text is refused with no greater number
    /// than a store of wrong shape.
    pub fn save(&mut self, table: u64, text: &[u8]) -> Answer {
        let setting = Setting::parse(text)?;
        self.store_mut()?.save(table, setting)
    }

    /// The new version's number.
    pub fn return_to(&mut self, table: u64, version: u64) -> Answer {
        self.store_mut()?.return_to(table, version)
    }

    /// The text of a version, if a buffer of `room` bytes takes it. The call's
    /// value is its length.
    pub fn read(&self, table: u64, version: u64, room: usize) -> Result<Vec<u8>, u64> {
        match self {
            Lent::Store(store) => store.read(table, version, room),
            Lent::Other(_) => Err(WRONG_SHAPE),
        }
    }

    /// The number of versions freed. The list has "64-bit numbers, table then
    /// version".
    pub fn keep(&mut self, list: &[u64]) -> Answer {
        let (listed, rest) = list.as_chunks();
        refuse_if(&[(WRONG_SHAPE, !rest.is_empty())])?;
        self.store_mut()?.keep(listed)
    }

    fn store_mut(&mut self) -> Result<&mut Store, u64> {
        match self {
            Lent::Store(store) => Ok(store),
            Lent::Other(_) => Err(WRONG_SHAPE),
        }
    }
}

impl Store {
    /// Each version with its table.
    pub fn versions(&self) -> impl Iterator<Item = (u64, &Version)> {
        self.tables
            .iter()
            .flat_map(|(&table, versions)| versions.iter().map(move |version| (table, version)))
    }

    pub fn save(&mut self, table: u64, setting: Setting) -> Answer {
        refuse_if(&[
            (NUMBER_LIMIT, self.next_number(table) > MAX_VERSION),
            (NO_VERSION, table >= TABLES),
            (STORE_FULL, self.is_full()),
        ])?;
        Ok(self.add(table, setting))
    }

    pub fn return_to(&mut self, table: u64, version: u64) -> Answer {
        refuse_if(&[(NUMBER_LIMIT, self.next_number(table) > MAX_VERSION)])?;
        let setting = self.find(table, version)?.setting.clone();
        refuse_if(&[(STORE_FULL, self.is_full())])?;
        Ok(self.add(table, setting))
    }

    /// A buffer can be too short only for a version that exists.
    pub fn read(&self, table: u64, version: u64, room: usize) -> Result<Vec<u8>, u64> {
        let text = self.find(table, version)?.setting.text();
        refuse_if(&[(SHORT_BUFFER, room < text.len())])?;
        Ok(text)
    }

    /// Frees what is neither listed nor the newest of its table. A version that
    /// stands in two places is kept in both, or freed in both and counted twice.
    pub fn keep(&mut self, listed: &[[u64; 2]]) -> Answer {
        for &[table, number] in listed {
            self.find(table, number)?;
        }
        let mut kept: BTreeSet<[u64; 2]> = listed.iter().copied().collect();
        for (&table, versions) in &self.tables {
            kept.extend(versions.iter().map(|one| [table, one.number]).max());
        }
        let held = self.versions().count();
        for (&table, versions) in &mut self.tables {
            versions.retain(|version| kept.contains(&[table, version.number]));
        }
        Ok((held - self.versions().count()) as u64)
    }

    /// One more than the table's greatest number.
    fn next_number(&self, table: u64) -> u64 {
        let versions = self.tables.get(&table).into_iter().flatten();
        1 + versions.map(|version| version.number).max().unwrap_or(0)
    }

    fn is_full(&self) -> bool {
        self.versions().count() == PLACES
    }

    /// Of two versions with one number, that in the lower place.
    fn find(&self, table: u64, number: u64) -> Result<&Version, u64> {
        let versions = self.tables.get(&table).into_iter().flatten();
        versions
            .filter(|version| version.number == number)
            .min_by_key(|version| version.place)
            .ok_or(NO_VERSION)
    }

    /// Puts a new version in the lowest free place, which there must be.
    fn add(&mut self, table: u64, setting: Setting) -> u64 {
        let number = self.next_number(table);
        let mut used = [false; PLACES];
        for (_, version) in self.versions() {
            used[version.place] = true;
        }
        let place = used.iter().position(|used| !used).expect("a place is free");
        self.tables.entry(table).or_default().push(Version {
            number,
            setting,
            place,
        });
        number
    }

    pub fn bytes(&self) -> Vec<u8> {
        let mut bytes = vec![0; SIZE];
        for (table, version) in self.versions() {
            let start = PLACE_SIZE * version.place;
            bytes[start..start + PLACE_SIZE].copy_from_slice(&version.bytes(table));
        }
        bytes
    }

    /// Takes over a store handed in; nothing where its size or shape is wrong.
    pub fn from_bytes(bytes: &[u8]) -> Option<Store> {
        if bytes.len() != SIZE {
            return None;
        }
        let mut store = Store::default();
        for (place, bytes) in bytes.chunks(PLACE_SIZE).enumerate() {
            if bytes.iter().any(|&byte| byte != 0) {
                let (table, version) = Version::from_bytes(place, bytes)?;
                store.tables.entry(table).or_default().push(version);
            }
        }
        Some(store)
    }
}

impl Version {
    fn bytes(&self, table: u64) -> Vec<u8> {
        let kind = KINDS.iter().position(|&kind| kind == self.setting.kind);
        let kind = kind.expect("every kind is listed") as u8;
        let mut bytes = self.number.to_le_bytes().to_vec();
        bytes.extend([table as u8, kind, self.setting.address, 0]);
        bytes.extend(&self.setting.registers);
        bytes.resize(PLACE_SIZE, 0);
        bytes
    }

    /// A place that is in use, with its table; nothing where its shape is
    /// wrong.
    fn from_bytes(place: usize, bytes: &[u8]) -> Option<(u64, Version)> {
        let (number, bytes) = bytes.split_first_chunk()?;
        let (&[table, kind, address, spare], bytes) = bytes.split_first_chunk()?;
        let number = u64::from_le_bytes(*number);
        let kind = *KINDS.get(kind as usize)?;
        let (registers, rest) = bytes.split_at(kind.registers().count());
        let right = (1..=MAX_VERSION).contains(&number)
            && u64::from(table) < TABLES
            && kind.allows(address.into())
            && spare == 0
            && rest.iter().all(|&byte| byte == 0);
        let setting = Setting {
            kind,
            address,
            registers: registers.to_vec(),
        };
        let version = Version {
            number,
            setting,
            place,
        };
        right.then_some((table.into(), version))
    }
}

#[cfg(test)]
mod tests {
    use super::setting::tests::{bytes, FRESH_BOARDS};
    use super::*;

    fn fresh() -> Lent {
        Lent::Store(Store::default())
    }

    /// A PCA9531 whose last register has a value.
    fn board(value: u8) -> Vec<u8> {
        bytes(&FRESH_BOARDS[2].0.replace("r6=0", &format!("r6={value}")))
    }

    fn read(lent: &Lent, table: u64, version: u64) -> Result<Vec<u8>, u64> {
        lent.read(table, version, 233)
    }

    /// A store whose first place is this, from its front; the rest is 0.
    fn store_of(first_place: &[u8]) -> Vec<u8> {
        let mut bytes = first_place.to_vec();
        bytes.resize(SIZE, 0);
        bytes
    }

    /// Version 1 of table 5 is the PCA9531 of address 6, registers 1 to 6.
    const PLACE: [u8; 18] = [1, 0, 0, 0, 0, 0, 0, 0, 5, 2, 6, 0, 1, 2, 3, 4, 5, 6];

    /// The same with a byte changed.
    fn changed(place: usize, byte: u8) -> Vec<u8> {
        let mut bytes = store_of(&PLACE);
        bytes[place] = byte;
        bytes
    }

    /// The same with another number, lowest byte first.
    fn numbered(number: [u8; 8]) -> Lent {
        Lent::new(&store_of(&[&number, &PLACE[8..]].concat()))
    }

    /// All places in use, by versions 1 to 256 of table 9.
    fn full() -> Lent {
        let mut lent = fresh();
        for number in 1..=256 {
            assert_eq!(lent.save(9, &board(number as u8)), Ok(number));
        }
        lent
    }

    #[test]
    fn settings_of_fresh_boards_are_kept_exactly() {
        let mut lent = fresh();
        for (number, (text, _)) in (1..).zip(FRESH_BOARDS) {
            assert_eq!(lent.save(0, &bytes(text)), Ok(number));
        }
        for (number, (text, length)) in (1..).zip(FRESH_BOARDS) {
            let kept = lent.read(0, number, length).unwrap();
            assert_eq!((kept.len(), kept), (length, bytes(text)));
        }
    }

    /// The read-only bits of MODE1 and SUBADR1 among them.
    #[test]
    fn every_byte_of_a_register_is_kept() {
        let mut lent = fresh();
        let text = FRESH_BOARDS[0].0.replace("r0=145", "r0=255");
        let text = bytes(&text.replace("r24=226", "r24=227"));
        assert_eq!(lent.save(63, &text), Ok(1));
        assert_eq!(read(&lent, 63, 1), Ok(text));
    }

    #[test]
    fn versions_are_numbered_by_table() {
        let mut lent = fresh();
        assert_eq!(lent.save(0, &board(1)), Ok(1));
        assert_eq!(lent.save(63, &board(2)), Ok(1));
        assert_eq!(lent.save(0, &board(3)), Ok(2));
        assert_eq!(lent.save(0, &board(3)), Ok(3));
        assert_eq!(read(&lent, 63, 1), Ok(board(2)));
        assert_eq!(read(&lent, 0, 2), Ok(board(3)));
    }

    #[test]
    fn a_return_is_a_new_version_and_alters_none() {
        let mut lent = fresh();
        for value in 1..=3 {
            lent.save(4, &board(value)).unwrap();
        }
        let before = lent.bytes();
        assert_eq!(lent.return_to(4, 1), Ok(4));
        for (number, value) in [(1, 1), (2, 2), (3, 3), (4, 1)] {
            assert_eq!(read(&lent, 4, number), Ok(board(value)));
        }
        let after = lent.bytes();
        assert_eq!(after[..120], before[..120]);
        assert_eq!(after[160..], before[160..]);
        assert_eq!(after[120], 4);
        assert_eq!(after[128..160], before[8..40]);
    }

    #[test]
    fn a_version_stands_in_its_place() {
        let mut lent = fresh();
        let text = bytes("chip=9531|addr=6|r1=1|r2=2|r3=3|r4=4|r5=5|r6=6|");
        lent.save(5, &text).unwrap();
        assert_eq!(lent.bytes(), store_of(&PLACE));
        assert_eq!(Lent::new(&store_of(&PLACE)), lent);
        for (kind, (text, _)) in (0..).zip(FRESH_BOARDS) {
            lent.save(7, &bytes(text)).unwrap();
            let start = 40 * (1 + kind);
            let number = kind as u8 + 1;
            let head = [number, 0, 0, 0, 0, 0, 0, 0, 7, kind as u8];
            assert_eq!(lent.bytes()[start..start + 10], head);
        }
        assert_eq!(lent.bytes()[50..54], [21, 0, 145, 5]);
        assert_eq!(lent.bytes()[76..80], [226, 228, 232, 224]);
        assert_eq!(lent.bytes()[106..111], [226, 228, 232, 224, 0]);
    }

    #[test]
    fn a_fresh_store_has_zeros() {
        for bytes in [vec![0; SIZE], vec![255; SIZE], store_of(&PLACE)] {
            let mut lent = Lent::new(&bytes);
            assert_eq!(lent.make_fresh(), Ok(0));
            assert_eq!(lent.bytes(), [0; 10_240]);
        }
        for size in [0, SIZE - 1, SIZE + 1] {
            let mut lent = Lent::new(&vec![7; size]);
            assert_eq!(lent.make_fresh(), Err(4));
            assert_eq!(lent.bytes(), vec![7; size]);
        }
    }

    #[test]
    fn right_shapes_are_taken() {
        let right = [
            (0, 255),
            (5, 255),
            (8, 0),
            (8, 63),
            (9, 3),
            (10, 0),
            (10, 7),
            (12, 255),
            (17, 0),
            (40, 1),
        ];
        for (place, byte) in right {
            let bytes = changed(place, byte);
            assert_eq!(Store::from_bytes(&bytes).unwrap().bytes(), bytes);
        }
        let greatest = numbered([0, 0, 0, 0, 0, 0, 1, 0]);
        assert_eq!(read(&greatest, 5, 1 << 48).map(|text| text.len()), Ok(47));
    }

    #[test]
    fn wrong_shapes_are_refused() {
        let wrong = [
            (0, 0),
            (6, 1),
            (7, 1),
            (8, 64),
            (9, 4),
            (9, 255),
            (10, 8),
            (11, 1),
            (18, 1),
            (39, 1),
            (48, 1),
            (SIZE - 1, 1),
        ];
        for (place, byte) in wrong {
            let mut lent = Lent::new(&changed(place, byte));
            assert_eq!(lent.save(0, &board(0)), Err(4), "{place} {byte}");
            assert_eq!(lent.return_to(5, 1), Err(4));
            assert_eq!(read(&lent, 5, 1), Err(4));
            assert_eq!(lent.keep(&[]), Err(4));
            assert_eq!(lent.bytes(), changed(place, byte));
        }
        for size in [0, 40, SIZE - 1, SIZE + 1, 2 * SIZE] {
            let mut lent = Lent::new(&vec![0; size]);
            assert_eq!(lent.save(0, &board(0)), Err(4));
            assert_eq!(read(&lent, 5, 1), Err(4));
            assert_eq!(lent.keep(&[]), Err(4));
        }
    }

    /// Kinds have their own addresses and their own registers.
    #[test]
    fn the_shape_of_a_place_goes_by_its_kind() {
        let driver = |kind: u8, address: u8, last: usize| {
            let mut place = [1, 0, 0, 0, 0, 0, 0, 0, 0, kind, address, 0].to_vec();
            place.resize(12 + last, 0);
            place.push(9);
            Store::from_bytes(&store_of(&place)).is_some()
        };
        assert!(driver(0, 127, 27) && driver(1, 127, 17));
        assert!(!driver(1, 127, 18));
        for address in [3, 112, 128, 255] {
            assert!(!driver(0, address, 0) && !driver(1, address, 0));
        }
    }

    #[test]
    fn a_save_takes_the_lowest_free_place() {
        let mut bytes = vec![0; SIZE];
        bytes[40..58].copy_from_slice(&PLACE);
        let mut lent = Lent::new(&bytes);
        for (number, first) in [(2, 0), (3, 80), (4, 120)] {
            assert_eq!(lent.save(5, &board(0)), Ok(u64::from(number)));
            assert_eq!(lent.bytes()[first], number);
        }
    }

    #[test]
    fn of_two_places_with_one_version_the_lowest_counts() {
        let mut bytes = store_of(&PLACE);
        bytes[40..58].copy_from_slice(&PLACE);
        bytes[57] = 99;
        let mut lent = Lent::new(&bytes);
        assert!(read(&lent, 5, 1).unwrap().ends_with(b"r6=6\n"));
        assert_eq!(lent.return_to(5, 1), Ok(2));
        assert!(read(&lent, 5, 2).unwrap().ends_with(b"r6=6\n"));
    }

    #[test]
    fn the_256th_save_is_the_last() {
        let mut lent = full();
        let before = lent.bytes();
        assert_eq!(lent.save(9, &board(0)), Err(12));
        assert_eq!(lent.save(0, &board(0)), Err(12));
        assert_eq!(lent.return_to(9, 256), Err(12));
        assert_eq!(lent.bytes(), before);
        assert_eq!(read(&lent, 9, 255), Ok(board(255)));
        assert_eq!(read(&lent, 9, 256), Ok(board(0)));
    }

    #[test]
    fn a_buffer_is_long_enough_or_not() {
        let mut lent = fresh();
        for (number, (text, length)) in (1..).zip(FRESH_BOARDS) {
            lent.save(1, &bytes(text)).unwrap();
            assert_eq!(lent.read(1, number, length), Ok(bytes(text)));
            assert_eq!(lent.read(1, number, length - 1), Err(8));
            assert_eq!(lent.read(1, number, 0), Err(8));
        }
    }

    #[test]
    fn there_are_64_tables() {
        let mut lent = fresh();
        for table in [64, 256, 1 << 32, u64::MAX] {
            assert_eq!(lent.save(table, &board(0)), Err(11));
            assert_eq!(lent.return_to(table, 1), Err(11));
            assert_eq!(read(&lent, table, 1), Err(11));
        }
        assert_eq!(lent, fresh());
    }

    #[test]
    fn a_version_never_written_is_refused() {
        let mut lent = fresh();
        lent.save(1, &board(0)).unwrap();
        for (table, version) in [(1, 0), (1, 2), (1, u64::MAX), (2, 0), (2, 1)] {
            assert_eq!(read(&lent, table, version), Err(11));
            assert_eq!(lent.return_to(table, version), Err(11));
        }
    }

    #[test]
    fn a_refused_text_is_not_saved() {
        let mut lent = fresh();
        let text = FRESH_BOARDS[2].0;
        let save = |lent: &mut Lent, part, other| lent.save(1, &bytes(&text.replace(part, other)));
        assert_eq!(save(&mut lent, "9531", "9532"), Err(1));
        assert_eq!(save(&mut lent, "addr=5", "addr=8"), Err(2));
        assert_eq!(save(&mut lent, "r6=0", "r6=256"), Err(4));
        assert_eq!(lent, fresh());
    }

    #[test]
    fn numbers_end_at_their_limit() {
        let mut lent = numbered([254, 255, 255, 255, 255, 255, 0, 0]);
        assert_eq!(lent.save(5, &board(0)), Ok((1 << 48) - 1));
        assert_eq!(lent.return_to(5, (1 << 48) - 2), Ok(1 << 48));
        let before = lent.clone();
        assert_eq!(lent.save(5, &board(0)), Err(6));
        assert_eq!(lent.return_to(5, 1 << 48), Err(6));
        assert_eq!(lent, before);
        assert_eq!(lent.save(6, &board(0)), Ok(1));
    }

    /// A table whose numbers are used up, in a full store.
    fn full_at_limit() -> Lent {
        let mut bytes = full().bytes();
        bytes[..8].copy_from_slice(&(1_u64 << 48).to_le_bytes());
        Lent::new(&bytes)
    }

    #[test]
    fn of_two_refusals_the_least_number_is_given() {
        let (unknown, barred) = (bytes("chip=1|addr=8|"), bytes("chip=9531|addr=8|"));
        let mut wrong = Lent::new(&changed(11, 1));
        assert_eq!(wrong.save(64, &unknown), Err(1));
        assert_eq!(wrong.save(64, &barred), Err(2));
        assert_eq!(wrong.save(64, &board(0)), Err(4));
        assert_eq!(wrong.return_to(64, 0), Err(4));
        assert_eq!(wrong.read(64, 0, 0), Err(4));
        let mut full = full();
        assert_eq!(full.save(9, &unknown), Err(1));
        assert_eq!(full.save(64, b""), Err(4));
        assert_eq!(full.save(64, &board(0)), Err(11));
        assert_eq!(full.return_to(9, 257), Err(11));
        assert_eq!(full.read(9, 257, 0), Err(11));
        let mut limit = full_at_limit();
        assert_eq!(limit.save(9, &barred), Err(2));
        assert_eq!(limit.save(9, b""), Err(4));
        assert_eq!(limit.save(9, &board(0)), Err(6));
        assert_eq!(limit.return_to(9, 2), Err(6));
        assert_eq!(limit.return_to(9, 1), Err(6));
        assert_eq!(limit.save(8, &board(0)), Err(12));
        assert_eq!(wrong.keep(&[64]), Err(4));
        assert_eq!(wrong.keep(&[64, 1]), Err(4));
        assert_eq!(full.keep(&[64, 1, 9]), Err(4));
        assert_eq!(full.keep(&[64, 1]), Err(11));
    }

    /// Saves under these tables, in turn, each in the next place.
    fn saved(tables: &[u64]) -> Lent {
        let mut lent = fresh();
        for (value, &table) in (1..).zip(tables) {
            lent.save(table, &board(value)).unwrap();
        }
        lent
    }

    /// The bytes with these places free.
    fn without(mut bytes: Vec<u8>, places: &[usize]) -> Vec<u8> {
        for place in places {
            bytes[40 * place..40 * place + 40].fill(0);
        }
        bytes
    }

    /// The versions of table 3 are in places 0, 1 and 3, those of table 8 in
    /// places 2 and 4, that of table 0 in place 5.
    const TABLES_OF_SAVES: [u64; 6] = [3, 3, 8, 3, 8, 0];

    #[test]
    fn keep_frees_all_but_the_newest_and_those_listed() {
        let rows: [(&[u64], &[usize]); 9] = [
            (&[], &[0, 1, 2]),
            (&[3, 1], &[1, 2]),
            (&[3, 2], &[0, 2]),
            (&[8, 1], &[0, 1]),
            (&[8, 1, 3, 1], &[1]),
            (&[3, 2, 8, 1, 3, 1], &[]),
            // twice, and the newest
            (&[3, 2, 3, 2], &[0, 2]),
            (&[3, 3, 8, 2, 0, 1], &[0, 1, 2]),
            (&[0, 1, 3, 1, 3, 3, 3, 1], &[1, 2]),
        ];
        for (list, freed) in rows {
            let mut lent = saved(&TABLES_OF_SAVES);
            let left = without(lent.bytes(), freed);
            assert_eq!(lent.keep(list), Ok(freed.len() as u64), "{list:?}");
            assert_eq!(lent.bytes(), left, "{list:?}");
            assert_eq!(lent.keep(list), Ok(0));
            assert_eq!(lent.bytes(), left);
        }
    }

    #[test]
    fn keep_with_a_version_that_is_not_held_frees_nothing() {
        let missing = [
            [3, 0],
            [3, 4],
            [0, 2],
            [1, 1],
            [1, 3],
            [3, 257],
            [3, (1 << 32) + 1],
            [3, u64::MAX],
            [64, 0],
            [67, 1],
            [256, 1],
            [(1 << 32) + 3, 1],
            [u64::MAX, 1],
        ];
        let mut lent = saved(&TABLES_OF_SAVES);
        let before = lent.clone();
        for [table, version] in missing {
            assert_eq!(lent.keep(&[table, version]), Err(11), "{table} {version}");
            assert_eq!(lent.keep(&[table, version, 3, 1, 8, 2]), Err(11));
            assert_eq!(lent.keep(&[3, 1, table, version, 8, 2]), Err(11));
            assert_eq!(lent.keep(&[3, 1, 8, 2, table, version]), Err(11));
            assert_eq!(lent, before);
        }
        assert_eq!(fresh().keep(&[0, 0]), Err(11));
        assert_eq!(fresh().keep(&[0, 1]), Err(11));
        assert_eq!(fresh().keep(&[]), Ok(0));
    }

    #[test]
    fn a_list_has_an_even_length() {
        let mut lent = saved(&TABLES_OF_SAVES);
        let before = lent.clone();
        for list in [&[3][..], &[3, 1, 8], &[3, 9, 8], &[0; 511]] {
            assert_eq!(lent.keep(list), Err(4));
            assert_eq!(lent, before);
        }
    }

    #[test]
    fn freed_versions_are_gone_and_their_numbers_are_not_given_again() {
        let mut lent = saved(&TABLES_OF_SAVES);
        assert_eq!(lent.keep(&[3, 1]), Ok(2));
        for (table, version) in [(3, 2), (8, 1)] {
            assert_eq!(read(&lent, table, version), Err(11));
            assert_eq!(lent.return_to(table, version), Err(11));
            assert_eq!(lent.keep(&[table, version]), Err(11));
        }
        for (table, version, value) in [(3, 1, 1), (3, 3, 4), (8, 2, 5), (0, 1, 6)] {
            assert_eq!(read(&lent, table, version), Ok(board(value)));
        }
        for (table, number, place) in [(8, 3, 1), (3, 4, 2), (3, 5, 6)] {
            assert_eq!(lent.save(table, &board(9)), Ok(number));
            let head = [number as u8, 0, 0, 0, 0, 0, 0, 0, table as u8];
            assert_eq!(lent.bytes()[40 * place..40 * place + 9], head);
        }
        assert_eq!(lent.keep(&[]), Ok(4));
        assert_eq!(lent.return_to(3, 5), Ok(6));
        assert_eq!(lent.keep(&[]), Ok(1));
        assert_eq!(lent.return_to(3, 5), Err(11));
        assert_eq!(lent.save(3, &board(0)), Ok(7));
    }

    #[test]
    fn a_full_store_takes_saves_again() {
        let mut lent = full();
        let before = lent.bytes();
        let all: Vec<u64> = (1..=256).flat_map(|number| [9, number]).collect();
        assert_eq!(lent.keep(&all), Ok(0));
        assert_eq!(lent.bytes(), before);
        assert_eq!(lent.keep(&all[2..]), Ok(1));
        assert_eq!(lent.bytes(), without(before, &[0]));
        assert_eq!(lent.save(9, &board(0)), Ok(257));
        assert_eq!(lent.save(9, &board(0)), Err(12));
        assert_eq!(lent.keep(&[]), Ok(255));
        assert_eq!(lent.bytes()[..8], [1, 1, 0, 0, 0, 0, 0, 0]);
        assert_eq!(lent.bytes()[40..], [0; 10_200]);
    }

    /// By number, not by place.
    #[test]
    fn the_newest_has_the_greatest_number() {
        let mut bytes = full().bytes();
        bytes[..8].copy_from_slice(&1000_u64.to_le_bytes());
        let mut lent = Lent::new(&bytes);
        assert_eq!(lent.keep(&[9, 7]), Ok(254));
        let others: Vec<usize> = (1..256).filter(|&place| place != 6).collect();
        assert_eq!(lent.bytes(), without(bytes, &others));
        assert_eq!(lent.save(9, &board(0)), Ok(1001));
    }

    #[test]
    fn a_version_in_two_places_is_kept_or_freed_in_both() {
        let mut bytes = store_of(&PLACE);
        for place in [1, 2, 5] {
            bytes[40 * place..40 * place + 18].copy_from_slice(&PLACE);
            bytes[40 * place + 17] = place as u8;
        }
        let mut lent = Lent::new(&bytes);
        assert_eq!(lent.keep(&[]), Ok(0));
        bytes[200] = 2;
        let mut lent = Lent::new(&bytes);
        assert_eq!(lent.keep(&[5, 1]), Ok(0));
        assert_eq!(lent.bytes(), bytes);
        assert_eq!(lent.keep(&[5, 2]), Ok(3));
        assert_eq!(lent.bytes(), without(bytes, &[0, 1, 2]));
    }

    #[test]
    fn a_version_at_the_limit_of_numbers_is_kept() {
        let mut lent = full_at_limit();
        assert_eq!(lent.keep(&[9, 1]), Err(11));
        assert_eq!(lent.keep(&[9, 2, 9, 1 << 48]), Ok(254));
        assert_eq!(lent.save(9, &board(0)), Err(6));
        assert_eq!(lent.return_to(9, 2), Err(6));
        assert_eq!(lent.keep(&[]), Ok(1));
        assert_eq!(read(&lent, 9, 1 << 48), Ok(board(1)));
        assert_eq!(lent.save(9, &board(0)), Err(6));
        assert_eq!(lent.save(8, &board(0)), Ok(1));
    }
}
