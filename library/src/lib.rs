//! The lamp twin for Rust: the answers to a whole log of bus events, from an
//! empty bus, and a store of the settings that tables had, with versions. The
//! work is done by the proved static library; this wrapper tests what its
//! declaration cannot say.
//!
//! `./lamptwin --help` lists the lines of a log. An answer line is
//! `n=LINE code=CODE value=VALUE`; a put's value has bit i set exactly when
//! the device at position i acknowledged.
//!
//! A recorded log has `at=STAMP` and a space before each line. The stamp
//! counts driver ticks and goes from 2^32 - 1 to 0; what has passed since the
//! last accepted line goes to every driver before the event. Each output of a
//! board has two totals: the ticks or steps of all accepted waits, a line's
//! time among them, at which its lamp was lit, and those at which it was not.
//!
//! A setting says how a board was set up: the lines `chip=KIND`,
//! `addr=ADDRESS`, then `r<number>=BYTE` for each writable register in map
//! order, r0 to r27 of a PCA9635, r0 to r17 of a PCA9634, r1 to r6 of a PCA9531
//! or PCA9551, each line with its line feed and each number a decimal without
//! leading zeros. A store is `STORE_SIZE` bytes of the caller's that keep up to
//! 256 versions of settings, numbered from 1 on for each of the tables 0 to 63,
//! and `store_keep` makes room for more; docs/STORE.md has its bytes.

mod store;

pub use store::{store_fresh, store_keep, store_read, store_return, store_save, store_size};
pub use store::{Refused, SETTING_ROOM, STORE_SIZE};

use std::fmt;

/// No answer line is longer, its line feed included.
pub const ANSWER_ROOM: usize = 76;

/// The numbers in a row of totals: two for each of 16 outputs of 8 boards.
pub const TOTALS_ROOM: usize = 256;

/// The library's number for a lent row that is too short.
const SHORT_ROW: u64 = 8;

mod declared {
    // A slice of the library is a pointer and a length.
    extern "C" {
        pub fn lamptwin_lines(log: *const u8, log_length: usize) -> usize;
        pub fn lamptwin_run(
            log: *const u8,
            log_length: usize,
            answers: *mut u8,
            answers_length: usize,
        ) -> usize;
        pub fn lamptwin_replay(
            log: *const u8,
            log_length: usize,
            answers: *mut u8,
            answers_length: usize,
        ) -> usize;
        pub fn lamptwin_totals(
            log: *const u8,
            log_length: usize,
            totals: *mut u64,
            totals_length: usize,
        ) -> u64;
    }

    /// One of the calls above that answer a log.
    pub type Answering = unsafe extern "C" fn(*const u8, usize, *mut u8, usize) -> usize;
}

/// The buffer lent for the answers is too short; nothing was written.
#[derive(Debug, Clone, Copy, PartialEq, Eq)]
pub struct TooShort {
    /// A length that is enough.
    pub needed: usize,
}

impl fmt::Display for TooShort {
    fn fmt(&self, f: &mut fmt::Formatter<'_>) -> fmt::Result {
        write!(f, "the answers need a buffer of {} bytes", self.needed)
    }
}

impl std::error::Error for TooShort {}

/// The row lent for the totals has fewer than `TOTALS_ROOM` numbers; nothing
/// was written.
#[derive(Debug, Clone, Copy, PartialEq, Eq)]
pub struct RowTooShort;

impl fmt::Display for RowTooShort {
    fn fmt(&self, f: &mut fmt::Formatter<'_>) -> fmt::Result {
        write!(f, "the totals need a row of {TOTALS_ROOM} numbers")
    }
}

impl std::error::Error for RowTooShort {}

/// The number of lines in the log, each of which has one answer.
pub fn lines(log: &[u8]) -> usize {
    // SAFETY: a slice's pointer is valid for its length and never null, and
    // the library only reads through it.
    let lines = unsafe { declared::lamptwin_lines(log.as_ptr(), log.len()) };
    assert!(lines <= log.len(), "a line has a byte or a line feed");
    lines
}

/// Writes the answers to the start of the buffer and gives their length.
pub fn run_into(log: &[u8], answers: &mut [u8]) -> Result<usize, TooShort> {
    answer_into(declared::lamptwin_run, log, answers)
}

/// As `run_into`, for a recorded log.
pub fn replay_into(log: &[u8], answers: &mut [u8]) -> Result<usize, TooShort> {
    answer_into(declared::lamptwin_replay, log, answers)
}

fn answer_into(
    call: declared::Answering,
    log: &[u8],
    answers: &mut [u8],
) -> Result<usize, TooShort> {
    // SAFETY: both pointers are valid for their lengths and never null, a
    // shared and a mutable slice cannot overlap, and either call writes
    // within the second alone, and not at all where it is too short.
    let written = unsafe { call(log.as_ptr(), log.len(), answers.as_mut_ptr(), answers.len()) };
    assert!(written <= answers.len(), "the answers fit their buffer");
    if written == 0 && !log.is_empty() {
        let needed = lines(log).saturating_mul(ANSWER_ROOM);
        assert!(answers.len() < needed, "a line has an answer");
        return Err(TooShort { needed });
    }
    Ok(written)
}

/// The answers to a log.
pub fn run(log: &[u8]) -> Vec<u8> {
    all_answers(declared::lamptwin_run, log)
}

/// The answers to a recorded log.
pub fn replay(log: &[u8]) -> Vec<u8> {
    all_answers(declared::lamptwin_replay, log)
}

fn all_answers(call: declared::Answering, log: &[u8]) -> Vec<u8> {
    let mut answers = vec![0; lines(log).saturating_mul(ANSWER_ROOM)];
    let written = answer_into(call, log, &mut answers).expect("the buffer has the room asked for");
    answers.truncate(written);
    answers
}

/// Writes the totals at the end of a recorded log to the start of the row: at
/// 32 times position plus 2 times output the lit ticks or steps, behind it the
/// unlit ones, and 0 where there is no such output.
pub fn totals_into(log: &[u8], totals: &mut [u64]) -> Result<(), RowTooShort> {
    // SAFETY: both pointers are valid for their lengths and never null, a
    // shared and a mutable slice cannot overlap, and the call writes within
    // the second alone, and not at all where it is too short.
    let code = unsafe {
        declared::lamptwin_totals(log.as_ptr(), log.len(), totals.as_mut_ptr(), totals.len())
    };
    let short = totals.len() < TOTALS_ROOM;
    let expected = if short { SHORT_ROW } else { 0 };
    assert_eq!(code, expected, "a row is refused exactly where it is short");
    if short {
        return Err(RowTooShort);
    }
    Ok(())
}

/// The totals at the end of a recorded log.
pub fn totals(log: &[u8]) -> [u64; TOTALS_ROOM] {
    let mut totals = [0; TOTALS_ROOM];
    totals_into(log, &mut totals).expect("the row has the room asked for");
    totals
}
