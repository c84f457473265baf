//! Comparison of the library's store with the model's, call by call: the
//! answer, every byte of the store and every byte of the buffer.

use crate::model::Answer;
use crate::store::calls::{Call, Calls, Left, CODES};
use crate::store::generate::Generator;
use crate::store::{Lent, PLACE_SIZE};
use std::collections::BTreeMap;

/// From so many sequences on, every answer of every call is to be met.
pub const ENOUGH_SEEDS: u64 = 100;

/// A call that leaves something else than the model says.
pub struct Mismatch {
    pub seed: u64,
    /// The call's number in its sequence, from 1.
    pub number: u64,
    pub call: Call,
    /// The lent store before the call.
    pub store: Vec<u8>,
    pub expected: Left,
    pub actual: Left,
}

/// What was compared, and the first mismatch.
#[derive(Default)]
pub struct Outcome {
    pub sequences: u64,
    pub calls: u64,
    /// How often each call had each number as its answer, by the model.
    pub codes: BTreeMap<(&'static str, u64), u64>,
    pub mismatch: Option<Mismatch>,
}

/// Compares on the sequences of the seeds, from the first on, until a call
/// leaves something else.
pub fn compare(other: Calls, first: u64, seeds: u64, calls: u64) -> Outcome {
    let mut outcome = Outcome::default();
    for seed in first..first + seeds {
        outcome.sequences += 1;
        outcome.mismatch = outcome.compare_sequence(other, seed, calls);
        if outcome.mismatch.is_some() {
            break;
        }
    }
    outcome
}

impl Outcome {
    /// A call knows nothing but what it is lent, so that each starts with the
    /// bytes that the one before it left.
    fn compare_sequence(&mut self, other: Calls, seed: u64, calls: u64) -> Option<Mismatch> {
        let mut generator = Generator::new(seed);
        let mut lent = Lent::new(&generator.first_buffer());
        for number in 1..=calls {
            if let Some(bytes) = generator.next_buffer(&lent) {
                lent = Lent::new(&bytes);
            }
            let call = generator.call(&lent);
            let store = lent.bytes();
            let expected = call.by_model(&mut lent);
            let actual = other(&call, &store);
            self.count(&call, &expected);
            if expected != actual {
                return Some(Mismatch {
                    seed,
                    number,
                    call,
                    store,
                    expected,
                    actual,
                });
            }
        }
        None
    }

    fn count(&mut self, call: &Call, left: &Left) {
        let code = left.answer.err().unwrap_or(0);
        self.calls += 1;
        *self.codes.entry((call.name(), code)).or_default() += 1;
    }

    /// How often a call had a number as its answer.
    pub fn times(&self, name: &'static str, code: u64) -> u64 {
        self.codes.get(&(name, code)).copied().unwrap_or(0)
    }

    /// The answers that were never met, each a call and a number.
    pub fn unmet(&self) -> Vec<(&'static str, u64)> {
        let answers = |(name, codes): (&'static str, &'static [u64])| {
            codes.iter().map(move |&code| (name, code))
        };
        let all = CODES.into_iter().flat_map(answers);
        all.filter(|&(name, code)| self.times(name, code) == 0)
            .collect()
    }
}

/// The call with the shortest list, and the store with the fewest places in
/// use, that were found and still leave something else.
pub fn shorten(other: Calls, mismatch: &Mismatch) -> (Call, Vec<u8>) {
    let differ =
        |call: &Call, store: &[u8]| call.by_model(&mut Lent::new(store)) != other(call, store);
    let mut call = mismatch.call.clone();
    let mut store = mismatch.store.clone();
    for start in (0..call.list().len()).step_by(2).rev() {
        let mut list = call.list().to_vec();
        list.drain(start..list.len().min(start + 2));
        let less = Call::Keep { list };
        if differ(&less, &store) {
            call = less;
        }
    }
    for start in (0..store.len()).step_by(PLACE_SIZE) {
        let mut less = store.clone();
        let end = less.len().min(start + PLACE_SIZE);
        less[start..end].fill(0);
        if differ(&call, &less) {
            store = less;
        }
    }
    (call, store)
}

/// An answer as the text program writes it.
pub fn answer_text(answer: Answer) -> String {
    match answer {
        Ok(value) => format!("code=0 value={value}"),
        Err(code) => format!("code={code} value=0"),
    }
}

/// How many bytes differ, and the first of them; nothing where none does.
pub fn byte_difference(expected: &[u8], actual: &[u8]) -> Option<String> {
    let pairs = expected.iter().zip(actual).enumerate();
    let mut different = pairs.filter(|(_, (one, other))| one != other);
    let (place, (one, other)) = different.next()?;
    let count = 1 + different.count();
    Some(format!(
        "{count} bytes differ, first byte {place}: model {one}, library {other}"
    ))
}

/// The places of a store that are not all 0, in hexadecimal.
pub fn places_in_use(store: &[u8]) -> Vec<String> {
    let places = store.chunks(PLACE_SIZE).enumerate();
    let in_use = places.filter(|(_, bytes)| bytes.iter().any(|&byte| byte != 0));
    in_use
        .map(|(place, bytes)| {
            let digits: Vec<String> = bytes.iter().map(|byte| format!("{byte:02x}")).collect();
            format!("place {place}: {}", digits.join(" "))
        })
        .collect()
}
