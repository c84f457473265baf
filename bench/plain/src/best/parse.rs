//! Lines of a recording, read eight bytes at a time where they stand.

use crate::event::Event;
use crate::Answer;

/// Bytes from the start of a line on, its own and what follows it. A line of a
/// listed shape ends within the first 128, and the 8 behind them are there so
/// that a load has no end to look for.
pub const WINDOW: usize = 128 + 8;
pub type Window = [u8; WINDOW];

const MAX_DIGITS: usize = 15;
const TENS: [u64; 8] = [1, 10, 100, 1_000, 10_000, 100_000, 1_000_000, 10_000_000];

// The first four bytes of events' names, and what follows them.
const ADD: u32 = name(b"add ");
const START: u32 = name(b"star");
const STOP: u32 = name(b"stop");
const PUT: u32 = name(b"put ");
const GET: u32 = name(b"get ");
const WAIT: u32 = name(b"wait");
const OE: u32 = name(b"oe d");
const EXT: u32 = name(b"ext ");
const RESET: u32 = name(b"rese");
const LIT: u32 = name(b"lit ");
const PIN: u32 = name(b"pin ");

const fn name(bytes: &[u8; 4]) -> u32 {
    u32::from_le_bytes(*bytes)
}

/// Who acts on what a line says.
pub trait Actor {
    fn act(&mut self, stamp: u32, event: Event) -> Answer;
}

/// Reads a line of a listed shape and has it acted on; gives the answer, and
/// the line's length with its line feed.
#[inline(always)]
pub fn line(window: &Window, actor: &mut impl Actor) -> Option<(Answer, usize)> {
    let mut cursor = Cursor { window, at: 0 };
    let stamp = u32::try_from(cursor.number(b"at=")?).ok()?;
    cursor.key(b" ev=")?;
    let answer = cursor.event(stamp, actor)?;
    Some((answer, cursor.at))
}

struct Cursor<'a> {
    window: &'a Window,
    at: usize,
}

impl Cursor<'_> {
    /// The next eight bytes, the first one lowest.
    #[inline(always)]
    fn load(&self) -> u64 {
        let at = self.at & 127;
        let bytes = self.window[at..]
            .first_chunk()
            .expect("the window has 8 more");
        u64::from_le_bytes(*bytes)
    }

    #[inline(always)]
    fn key<const N: usize>(&mut self, key: &[u8; N]) -> Option<()> {
        let mut wanted = [0; 8];
        wanted[..N].copy_from_slice(key);
        let difference = self.load() ^ u64::from_le_bytes(wanted);
        self.at += N;
        (difference << (64 - 8 * N) == 0).then_some(())
    }

    /// The end of the line.
    #[inline(always)]
    fn end(&mut self) -> Option<()> {
        self.key(b"\n")
    }

    /// Each sort of event is acted on where it is read, so that none is put
    /// together in memory to be taken apart again.
    #[inline(always)]
    fn event(&mut self, stamp: u32, actor: &mut impl Actor) -> Option<Answer> {
        let name = self.load() as u32;
        self.at += 4;
        Some(match name {
            PUT => {
                let byte = self.last_number(b"byte=")?;
                actor.act(stamp, Event::Put { byte })
            }
            START => {
                self.key(b"t\n")?;
                actor.act(stamp, Event::Start)
            }
            STOP => {
                self.end()?;
                actor.act(stamp, Event::Stop)
            }
            GET => {
                let ack = self.last_number(b"ack=")?;
                actor.act(stamp, Event::Get { ack })
            }
            WAIT => {
                let board = self.number(b" dev=")?;
                let ticks = self.last_number(b" ticks=")?;
                actor.act(stamp, Event::Wait { board, ticks })
            }
            LIT | PIN => return self.question(name, stamp, actor),
            _ => {
                let event = self.rare_event(name)?;
                self.end()?;
                actor.act(stamp, event)
            }
        })
    }

    #[inline(always)]
    fn question(&mut self, name: u32, stamp: u32, actor: &mut impl Actor) -> Option<Answer> {
        let board = self.number(b"dev=")?;
        let output = self.number(b" out=")?;
        if name == PIN {
            self.end()?;
            return Some(actor.act(stamp, Event::Pin { board, output }));
        }
        let ticks = self.last_number(b" ticks=")?;
        let event = Event::Lit {
            board,
            output,
            ticks,
        };
        Some(actor.act(stamp, event))
    }

    #[inline(never)]
    fn rare_event(&mut self, name: u32) -> Option<Event> {
        Some(match name {
            ADD => Event::Add {
                chip: self.number(b"chip=")?,
                address: self.number(b" addr=")?,
            },
            OE => Event::Oe {
                board: self.number(b"ev=")?,
                level: self.number(b" level=")?,
            },
            EXT => Event::Ext {
                board: self.number(b"dev=")?,
                level: self.number(b" level=")?,
            },
            RESET => Event::Reset {
                board: self.number(b"t dev=")?,
            },
            _ => return None,
        })
    }

    /// A key and its number, with which the line ends.
    #[inline(always)]
    fn last_number<const N: usize>(&mut self, key: &[u8; N]) -> Option<u64> {
        let number = self.number(key)?;
        self.end()?;
        Some(number)
    }

    /// A key and its number, a decimal of 1 to 15 digits without leading
    /// zeros.
    #[inline(always)]
    fn number<const N: usize>(&mut self, key: &[u8; N]) -> Option<u64> {
        self.key(key)?;
        let word = self.load();
        let (digits, number) = leading_decimal(word);
        self.at += digits;
        if digits == 0 || digits > 1 && word as u8 == b'0' {
            return None;
        }
        if digits < 8 {
            return Some(number);
        }
        let (more, low) = leading_decimal(self.load());
        self.at += more;
        (digits + more <= MAX_DIGITS).then(|| number * TENS[more & 7] + low)
    }
}

/// How many of the eight bytes are digits before the first that is none, and
/// their number.
#[inline(always)]
fn leading_decimal(word: u64) -> (usize, u64) {
    let digits = word ^ 0x3030_3030_3030_3030;
    // A byte above 9 gets its highest bit; a carry goes to later bytes alone.
    let others = (digits.wrapping_add(0x7676_7676_7676_7676) | digits) & 0x8080_8080_8080_8080;
    let count = others.trailing_zeros() / 8;
    // Zeros before the digits make eight of them; in two shifts, since one of
    // 64 is none.
    let eight = match count {
        8 => digits,
        _ => digits << 8 << (56 - 8 * count),
    };
    (count as usize, eight_digits(eight))
}

/// The number of eight digits, the first one in the lowest byte: pairs, then
/// fours, then all.
#[inline(always)]
fn eight_digits(digits: u64) -> u64 {
    const PAIRS: u64 = 0x0000_00FF_0000_00FF;
    let pairs = digits.wrapping_mul(10).wrapping_add(digits >> 8);
    let high = (pairs & PAIRS).wrapping_mul(0x000F_4240_0000_0064);
    let low = (pairs >> 16 & PAIRS).wrapping_mul(0x0000_2710_0000_0001);
    high.wrapping_add(low) >> 32
}
