//! How long a call takes on a store that has one free place, and a save or a
//! keep on one that has none.
//!
//! The library works on the lent bytes, and each of its calls looks at the
//! shape of all of them. The model works on what it keeps of the same store:
//! neither taking over the bytes nor writing them is in its times.

use crate::generate::Random;
use crate::store::calls::Call;
use crate::store::setting::{Kind, Setting, KINDS};
use crate::store::{Lent, Store, PLACES, TABLES};
use crate::timing::{elapsed, median};
use lamptwin::SETTING_ROOM;
use std::hint::black_box;
use std::time::Duration;
use std::{fmt, io};

/// Calls that are timed in a run, each on a store of its own.
pub const CALLS: usize = 16;

/// What is timed.
#[derive(Clone, Copy, Debug, PartialEq, Eq)]
pub enum Subject {
    /// Takes the free place.
    Save(Kind),
    /// Of the last version of the kind that is held.
    Read(Kind),
    /// A save on a full store.
    Refused,
    /// On a full store: frees all but the newest of each table.
    KeepNewest,
    /// On a full store: lists every version, so that none is freed.
    KeepAll,
}

pub fn subjects() -> Vec<Subject> {
    let saves = KINDS.map(Subject::Save);
    let reads = KINDS.map(Subject::Read);
    let others = [Subject::Refused, Subject::KeepNewest, Subject::KeepAll];
    [&saves[..], &reads, &others].concat()
}

impl fmt::Display for Subject {
    fn fmt(&self, f: &mut fmt::Formatter<'_>) -> fmt::Result {
        match self {
            Subject::Save(kind) => write!(f, "save, {}", kind.chip()),
            Subject::Read(kind) => write!(f, "read, {}", kind.chip()),
            Subject::Refused => f.write_str("save, refused"),
            Subject::KeepNewest => f.write_str("keep, newest"),
            Subject::KeepAll => f.write_str("keep, all"),
        }
    }
}

impl Subject {
    fn call(self) -> Call {
        match self {
            Subject::Save(kind) => save(kind),
            Subject::Refused => save(Kind::Pca9635),
            Subject::Read(kind) => {
                let is_of_kind = |place: &usize| kind_at(*place) == kind;
                let place = (0..PLACES - 1).rfind(is_of_kind);
                let [table, version] = held_at(place.expect("every kind is held"));
                Call::Read {
                    table,
                    version,
                    buffer: vec![0; SETTING_ROOM],
                }
            }
            Subject::KeepNewest => Call::Keep { list: Vec::new() },
            Subject::KeepAll => Call::Keep {
                list: (0..PLACES).flat_map(held_at).collect(),
            },
        }
    }

    fn store(self) -> Lent {
        match self {
            Subject::Save(_) | Subject::Read(_) => store_of(PLACES - 1),
            Subject::Refused | Subject::KeepNewest | Subject::KeepAll => store_of(PLACES),
        }
    }
}

fn save(kind: Kind) -> Call {
    Call::Save {
        table: TABLES - 1,
        text: setting(&mut Random::new(0), kind).text(),
    }
}

fn setting(random: &mut Random, kind: Kind) -> Setting {
    let registers = kind.registers().map(|_| random.byte()).collect();
    Setting {
        kind,
        address: 5,
        registers,
    }
}

fn kind_at(place: usize) -> Kind {
    KINDS[place % KINDS.len()]
}

/// The table and the version that stand in a place.
fn held_at(place: usize) -> [u64; 2] {
    let place = place as u64;
    [place % TABLES, place / TABLES + 1]
}

/// So many versions, of each kind in turn, under each table in turn.
fn store_of(versions: usize) -> Lent {
    let mut random = Random::new(1);
    let mut lent = Lent::Store(Store::default());
    for place in 0..versions {
        let [table, version] = held_at(place);
        let text = setting(&mut random, kind_at(place)).text();
        assert_eq!(lent.save(table, &text), Ok(version));
    }
    lent
}

/// The median time of a run, of so many calls.
pub struct Times {
    pub model: Duration,
    pub library: Duration,
}

impl Times {
    pub fn nanoseconds_a_call(time: Duration) -> f64 {
        time.as_nanos() as f64 / CALLS as f64
    }

    /// The library's time over the model's.
    pub fn ratio(&self) -> f64 {
        self.library.as_secs_f64() / self.model.as_secs_f64()
    }
}

/// Runs both in turn, `runs` times each, after one call that is not timed and
/// whose answer, store and buffer are compared.
pub fn time(subject: Subject, runs: usize) -> io::Result<Times> {
    let call = subject.call();
    let lent = subject.store();
    let bytes = lent.bytes();
    if call.by_model(&mut lent.clone()) != call.by_library(&bytes) {
        return Err(io::Error::other("the answers differ"));
    }
    let mut buffer = call.buffer();
    let mut model = Vec::new();
    let mut library = Vec::new();
    for _ in 0..runs {
        let mut stores = vec![lent.clone(); CALLS];
        model.push(elapsed(|| {
            for store in &mut stores {
                let answer = black_box(&call).answer_by_model(black_box(store), &mut buffer);
                let _ = black_box(answer);
            }
        }));
        let mut stores = vec![bytes.clone(); CALLS];
        library.push(elapsed(|| {
            for store in &mut stores {
                let answer = black_box(&call).answer_by_library(black_box(store), &mut buffer);
                let _ = black_box(answer);
            }
        }));
    }
    Ok(Times {
        model: median(model),
        library: median(library),
    })
}

#[cfg(test)]
mod tests {
    use super::*;
    use crate::store::{PLACE_SIZE, SIZE};

    /// Three versions of the last table are held, and four of each other, or
    /// four of each in a full store.
    #[test]
    fn calls_do_as_named() {
        for subject in subjects() {
            let mut lent = subject.store();
            let before = lent.bytes();
            let left = subject.call().by_model(&mut lent);
            match subject {
                Subject::Save(_) => {
                    assert_eq!(left.answer, Ok(4));
                    assert_ne!(left.store[SIZE - PLACE_SIZE], 0);
                }
                Subject::Read(kind) => {
                    let text = format!("chip={}\n", kind.chip());
                    assert!(left.answer.is_ok());
                    assert!(left.buffer.starts_with(text.as_bytes()));
                }
                Subject::Refused => assert_eq!(left.answer, Err(12)),
                Subject::KeepNewest => {
                    let (freed, kept) = left.store.split_at(192 * PLACE_SIZE);
                    assert_eq!(left.answer, Ok(192));
                    assert!(freed.iter().all(|&byte| byte == 0));
                    assert_eq!(kept, &before[192 * PLACE_SIZE..]);
                }
                Subject::KeepAll => {
                    assert_eq!(left.answer, Ok(0));
                    assert_eq!(left.store, before);
                }
            }
        }
    }
}
