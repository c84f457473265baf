//! Seeded calls on lent stores: fresh ones, full ones, ones in which room was
//! made, ones whose numbers come to their limit, and damaged ones.
//!
//! The generator looks at the model's store, so it knows which versions there
//! are and how long their texts are.

use crate::generate::Random;
use crate::store::calls::Call;
use crate::store::{texts, Lent, Version, MAX_VERSION, PLACES, PLACE_SIZE, SIZE, TABLES};

pub struct Generator {
    random: Random,
    /// Whether all calls are on one store, fresh at first, so that it fills by
    /// these calls alone, and again once room was made in it.
    patient: bool,
}

/// Tables that most calls are about.
const FEW_TABLES: [u64; 4] = [0, 1, 7, TABLES - 1];

/// No tables, some of them tables after being cut to fewer bits.
const WRONG_TABLES: [u64; 8] = [
    TABLES,
    TABLES + 1,
    127,
    255,
    256,
    1 << 32,
    1 << 63,
    u64::MAX,
];

/// Numbers of versions that often lie at an edge of a rule.
const EDGE_VERSIONS: [u64; 9] = [
    0,
    1,
    2,
    255,
    256,
    257,
    MAX_VERSION,
    MAX_VERSION + 1,
    u64::MAX,
];

/// How many versions a store handed in holds.
const HELD: [usize; 10] = [1, 2, 5, 40, 200, 254, 255, 255, 256, 256];

/// Numbers of versions in a store handed in: from the first on, so many.
const NUMBERS: [(u64, u64); 7] = [
    (1, 3),
    (1, 200),
    (250, 20),
    (1 << 32, 9),
    (1, MAX_VERSION - 1),
    (MAX_VERSION - 2, 3),
    (MAX_VERSION - 40, 40),
];

const WRONG_SIZES: [usize; 8] = [
    0,
    1,
    PLACE_SIZE,
    SIZE - PLACE_SIZE,
    SIZE - 1,
    SIZE + 1,
    SIZE + PLACE_SIZE,
    2 * SIZE,
];

impl Generator {
    pub fn new(seed: u64) -> Generator {
        Generator {
            random: Random::new(seed),
            patient: seed.is_multiple_of(4),
        }
    }

    /// The buffer lent to the first call.
    pub fn first_buffer(&mut self) -> Vec<u8> {
        if self.patient {
            vec![0; SIZE]
        } else {
            self.other_buffer(&[0; SIZE])
        }
    }

    /// Another buffer for the next calls, now and then.
    pub fn next_buffer(&mut self, lent: &Lent) -> Option<Vec<u8>> {
        let percent = match lent {
            _ if self.patient => 0,
            Lent::Store(_) => 4,
            Lent::Other(_) => 12,
        };
        let change = self.random.chance(percent);
        change.then(|| self.other_buffer(&lent.bytes()))
    }

    fn other_buffer(&mut self, bytes: &[u8]) -> Vec<u8> {
        match self.random.below(10) {
            0..=1 => vec![0; SIZE],
            2..=4 => self.store(),
            5..=6 => {
                let store = self.store();
                self.damaged(store)
            }
            7..=8 => self.damaged(bytes.to_vec()),
            _ => {
                let mut bytes = bytes.to_vec();
                bytes.resize(*self.random.pick(&WRONG_SIZES), 0);
                bytes
            }
        }
    }

    /// A store of right shape, with versions in any places. Some may be there
    /// twice.
    fn store(&mut self) -> Vec<u8> {
        let mut bytes = vec![0; SIZE];
        let (first, numbers) = *self.random.pick(&NUMBERS);
        let mut free: Vec<usize> = (0..PLACES).collect();
        for _ in 0..*self.random.pick(&HELD) {
            let place = free.swap_remove(self.random.index(free.len()));
            let table = self.table();
            let version = Version {
                number: first + self.random.below(numbers),
                setting: texts::right(&mut self.random),
                place,
            };
            let start = PLACE_SIZE * place;
            bytes[start..start + PLACE_SIZE].copy_from_slice(&version.bytes(table));
        }
        bytes
    }

    /// With one to three bytes changed, mostly in places that are in use.
    fn damaged(&mut self, mut bytes: Vec<u8>) -> Vec<u8> {
        if bytes.is_empty() {
            return bytes;
        }
        for _ in 0..*self.random.pick(&[1, 1, 1, 2, 3]) {
            let in_use: Vec<usize> = (0..bytes.len()).filter(|&at| bytes[at] != 0).collect();
            let any = if in_use.is_empty() || self.random.chance(30) {
                self.random.index(bytes.len())
            } else {
                *self.random.pick(&in_use)
            };
            let start = any / PLACE_SIZE * PLACE_SIZE;
            let (first, end) = *self.random.pick(&[(0, 12), (8, 12), (0, PLACE_SIZE)]);
            let part = first + self.random.index(end - first);
            let at = (start + part).min(bytes.len() - 1);
            bytes[at] = match self.random.below(4) {
                0 => 0,
                1 => bytes[at].wrapping_add(1),
                2 => bytes[at] ^ 1 << self.random.below(8),
                _ => self.random.byte(),
            };
        }
        bytes
    }

    pub fn call(&mut self, lent: &Lent) -> Call {
        let fresh = match lent {
            _ if self.patient => 0,
            Lent::Store(_) => 1,
            Lent::Other(_) => 10,
        };
        if self.random.chance(fresh) {
            return Call::Fresh;
        }
        let keep = match lent {
            Lent::Store(store) if self.patient && !store.is_full() => 0,
            _ if self.patient => 20,
            Lent::Store(_) => 4,
            Lent::Other(_) => 12,
        };
        if self.random.chance(keep) {
            return self.keep(lent);
        }
        match self.random.below(10) {
            0..=4 => self.save(),
            5..=6 => self.return_to(lent),
            _ => self.read(lent),
        }
    }

    fn save(&mut self) -> Call {
        let table = self.any_table();
        let right = if self.patient { 95 } else { 60 };
        let text = if self.random.chance(right) {
            texts::right(&mut self.random).text()
        } else {
            texts::wrong(&mut self.random)
        };
        Call::Save { table, text }
    }

    fn return_to(&mut self, lent: &Lent) -> Call {
        let (table, version) = self.table_and_version(lent);
        Call::Return { table, version }
    }

    fn read(&mut self, lent: &Lent) -> Call {
        let (table, version) = self.table_and_version(lent);
        let length = lent.read(table, version, usize::MAX).map(|text| text.len());
        let room = self.room(length.unwrap_or(57));
        let buffer = (0..room).map(|_| self.random.byte()).collect();
        Call::Read {
            table,
            version,
            buffer,
        }
    }

    /// Of versions that the store holds, none, some or all of them and some
    /// twice; now and then with another pair among them, or a number alone.
    fn keep(&mut self, lent: &Lent) -> Call {
        let held = held(lent);
        let mut pairs: Vec<(u64, u64)> = match self.random.below(8) {
            0..=1 => Vec::new(),
            2 => held,
            3..=4 => {
                let percent = *self.random.pick(&[10, 50, 90]);
                let listed = held.into_iter().filter(|_| self.random.chance(percent));
                listed.collect()
            }
            _ if held.is_empty() => vec![self.table_and_version(lent)],
            _ => {
                let pairs = *self.random.pick(&[1, 1, 2, 4, 300]);
                (0..pairs).map(|_| *self.random.pick(&held)).collect()
            }
        };
        if self.random.chance(20) {
            let again = self.random.index(pairs.len() + 1);
            pairs.extend_from_within(again..);
        }
        if self.random.chance(40) {
            let at = self.random.index(pairs.len() + 1);
            pairs.insert(at, self.table_and_version(lent));
        }
        let numbers = pairs.into_iter().flat_map(<[u64; 2]>::from);
        let mut list: Vec<u64> = numbers.collect();
        if self.random.chance(12) {
            let at = *self.random.pick(&[0, list.len()]);
            list.insert(at, self.random.below(TABLES));
        }
        Call::Keep { list }
    }

    /// The length of a buffer for a text, mostly about as long.
    fn room(&mut self, length: usize) -> usize {
        match self.random.below(8) {
            0..=2 => length,
            3 => length - 1,
            4 => length + 1,
            5 => length + self.random.index(80),
            6 => self.random.index(length),
            _ => *self.random.pick(&[0, 1, 233, 300]),
        }
    }

    fn table(&mut self) -> u64 {
        if self.random.chance(85) {
            *self.random.pick(&FEW_TABLES)
        } else {
            self.random.below(TABLES)
        }
    }

    fn any_table(&mut self) -> u64 {
        match self.random.below(20) {
            0 => *self.random.pick(&WRONG_TABLES),
            1 => self.table() + *self.random.pick(&[TABLES, 256, 1 << 32]),
            _ => self.table(),
        }
    }

    /// Mostly of a version that the store holds.
    fn table_and_version(&mut self, lent: &Lent) -> (u64, u64) {
        let edge = *self.random.pick(&EDGE_VERSIONS);
        let held = held(lent);
        if held.is_empty() {
            return (self.any_table(), edge);
        }
        let (table, version) = *self.random.pick(&held);
        match self.random.below(24) {
            0 => (table, version + 1),
            1 => (table, version - 1),
            2 => (table, version + *self.random.pick(&[1 << 32, 1 << 48])),
            3 => (table, edge),
            4 => (self.any_table(), version),
            5 => (table + *self.random.pick(&[TABLES, 256, 1 << 32]), version),
            6 => (self.any_table(), edge),
            7 => (0, 0), // as the bytes of a free place
            _ => (table, version),
        }
    }
}

/// The table and the number of each version.
fn held(lent: &Lent) -> Vec<(u64, u64)> {
    match lent {
        Lent::Store(store) => store.versions().map(|(t, one)| (t, one.number)).collect(),
        Lent::Other(_) => Vec::new(),
    }
}

#[cfg(test)]
mod tests {
    use super::*;
    use crate::store::calls::Left;
    use std::collections::BTreeMap;

    /// Gives each call of a patient sequence, what it leaves by the model, and
    /// the store after it.
    fn for_each_call(seed: u64, mut each: impl FnMut(&Call, &Left, &Lent)) {
        let mut generator = Generator::new(4 * seed);
        let mut lent = Lent::new(&generator.first_buffer());
        for _ in 0..1000 {
            let call = generator.call(&lent);
            let left = call.by_model(&mut lent);
            each(&call, &left, &lent);
        }
    }

    #[test]
    fn a_patient_sequence_fills_its_store_again() {
        for seed in 1..=10 {
            let (mut full, mut times_full) = (false, 0);
            for_each_call(seed, |_, _, lent| {
                let was_full = full;
                full = held(lent).len() == PLACES;
                times_full += u64::from(full && !was_full);
            });
            assert!(times_full >= 2, "seed {seed}");
        }
    }

    /// "New numbers never reuse old ones", and "reading any version", if it is
    /// kept, "gives exactly what that save or return put in".
    #[test]
    fn a_patient_sequence_reads_what_was_put_in() {
        for seed in 1..=10 {
            let mut put_in = BTreeMap::new();
            let mut reads = 0;
            for_each_call(seed, |call, left, _| match (call, left.answer) {
                (Call::Save { table, text }, Ok(number)) => {
                    assert_eq!(put_in.insert((*table, number), text.clone()), None);
                }
                (Call::Return { table, version }, Ok(number)) => {
                    let text = put_in[&(*table, *version)].clone();
                    assert_eq!(put_in.insert((*table, number), text), None);
                }
                (Call::Read { table, version, .. }, Ok(length)) => {
                    let text = &put_in[&(*table, *version)];
                    assert_eq!(left.buffer[..length as usize], text[..]);
                    reads += 1;
                }
                _ => {}
            });
            assert!(reads > 0 && put_in.len() > PLACES, "seed {seed}");
        }
    }
}
