//! Lines of a recording.

use crate::event::Event;

const MAX_DIGITS: usize = 15;

/// Splits at line feeds; the last one may lack.
pub fn lines(log: &[u8]) -> impl Iterator<Item = &[u8]> {
    log.split_inclusive(|&byte| byte == b'\n')
        .map(|line| line.strip_suffix(b"\n").unwrap_or(line))
}

/// Stamp and event of a line of a listed shape. None of these is longer than
/// a line may be.
pub fn parse(line: &[u8]) -> Option<(u32, Event)> {
    let mut words = line.split(|&byte| byte == b' ');
    let stamp = number(words.next(), "at=")?;
    let name = words.next()?;
    let event = event(name, |key| number(words.next(), key))?;
    match words.next() {
        None => Some((u32::try_from(stamp).ok()?, event)),
        Some(_) => None,
    }
}

/// The event of that name, with the arguments that follow.
fn event(name: &[u8], mut argument: impl FnMut(&str) -> Option<u64>) -> Option<Event> {
    Some(match name {
        b"ev=add" => Event::Add {
            chip: argument("chip=")?,
            address: argument("addr=")?,
        },
        b"ev=start" => Event::Start,
        b"ev=stop" => Event::Stop,
        b"ev=put" => Event::Put {
            byte: argument("byte=")?,
        },
        b"ev=get" => Event::Get {
            ack: argument("ack=")?,
        },
        _ => return board_event(name, argument("dev=")?, argument),
    })
}

/// The same of an event at one board.
fn board_event(
    name: &[u8],
    board: u64,
    mut argument: impl FnMut(&str) -> Option<u64>,
) -> Option<Event> {
    Some(match name {
        b"ev=wait" => Event::Wait {
            board,
            ticks: argument("ticks=")?,
        },
        b"ev=oe" => Event::Oe {
            board,
            level: argument("level=")?,
        },
        b"ev=ext" => Event::Ext {
            board,
            level: argument("level=")?,
        },
        b"ev=reset" => Event::Reset { board },
        b"ev=lit" => Event::Lit {
            board,
            output: argument("out=")?,
            ticks: argument("ticks=")?,
        },
        b"ev=pin" => Event::Pin {
            board,
            output: argument("out=")?,
        },
        _ => return None,
    })
}

/// The number of a word `key=number`.
fn number(word: Option<&[u8]>, key: &str) -> Option<u64> {
    decimal(word?.strip_prefix(key.as_bytes())?)
}

/// A decimal of 1 to 15 digits without leading zeros.
fn decimal(digits: &[u8]) -> Option<u64> {
    match digits {
        [] | [b'0', _, ..] => return None,
        _ if digits.len() > MAX_DIGITS => return None,
        _ => (),
    }
    let mut number = 0;
    for digit in digits {
        if !digit.is_ascii_digit() {
            return None;
        }
        number = 10 * number + u64::from(digit - b'0');
    }
    Some(number)
}
