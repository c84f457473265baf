//! Event lines and answer lines of the text program.

use crate::model::{Bus, Event, BAD_LINE};

/// "At most 80 bytes before the line feed."
pub const MAX_LINE: usize = 80;
const MAX_DIGITS: usize = 15;

/// Runs a fresh bus over all lines of the input and gives the answer lines.
pub fn run(input: &[u8]) -> Vec<u8> {
    let mut bus = Bus::new();
    answers(input, |line| answer(&mut bus, line))
}

/// The answer lines to all lines of the input, each answered in turn.
pub fn answers(input: &[u8], mut answer: impl FnMut(&[u8]) -> (u64, u64)) -> Vec<u8> {
    let mut output = Vec::new();
    for (index, line) in lines(input).enumerate() {
        let (code, value) = answer(line);
        let text = format!("n={} code={code} value={value}\n", index + 1);
        output.extend_from_slice(text.as_bytes());
    }
    output
}

/// Splits at line feeds. What follows the last line feed is a line only if it
/// has at least one byte.
pub fn lines(input: &[u8]) -> impl Iterator<Item = &[u8]> {
    input
        .split_inclusive(|&byte| byte == b'\n')
        .map(|line| line.strip_suffix(b"\n").unwrap_or(line))
}

/// The answer (code, value) to one line.
pub fn answer(bus: &mut Bus, line: &[u8]) -> (u64, u64) {
    match parse(line) {
        Some(event) => bus.apply(event),
        None => (BAD_LINE, 0),
    }
}

/// Reads a line of a listed shape.
pub fn parse(line: &[u8]) -> Option<Event> {
    if line.len() > MAX_LINE {
        return None;
    }
    let mut parts = line.split(|&byte| byte == b' ');
    let name = parts.next()?.strip_prefix(b"ev=")?;
    let mut number = |key: &str| number_after(parts.next()?, key);
    let event = match name {
        b"add" => Event::Add {
            chip: number("chip=")?,
            address: number("addr=")?,
        },
        b"start" => Event::Start,
        b"stop" => Event::Stop,
        b"put" => Event::Put {
            byte: number("byte=")?,
        },
        b"get" => Event::Get {
            ack: number("ack=")?,
        },
        b"wait" => Event::Wait {
            device: number("dev=")?,
            ticks: number("ticks=")?,
        },
        b"oe" => Event::Oe {
            device: number("dev=")?,
            level: number("level=")?,
        },
        b"ext" => Event::Ext {
            device: number("dev=")?,
            level: number("level=")?,
        },
        b"reset" => Event::Reset {
            device: number("dev=")?,
        },
        b"lit" => Event::Lit {
            device: number("dev=")?,
            output: number("out=")?,
            ticks: number("ticks=")?,
        },
        b"pin" => Event::Pin {
            device: number("dev=")?,
            output: number("out=")?,
        },
        _ => return None,
    };
    match parts.next() {
        None => Some(event),
        Some(_) => None,
    }
}

/// The number of a part `key=number`.
fn number_after(part: &[u8], key: &str) -> Option<u64> {
    decimal(part.strip_prefix(key.as_bytes())?)
}

/// "Decimal of 1 to 15 digits, no leading zero (0 itself is 0)."
pub fn decimal(digits: &[u8]) -> Option<u64> {
    let leading_zero = digits.len() > 1 && digits[0] == b'0';
    let legal_length = (1..=MAX_DIGITS).contains(&digits.len());
    if leading_zero || !legal_length || !digits.iter().all(u8::is_ascii_digit) {
        return None;
    }
    let add_digit = |sum, &digit: &u8| 10 * sum + u64::from(digit - b'0');
    Some(digits.iter().fold(0, add_digit))
}

/// The line of an event, without line feed.
pub fn format_event(event: Event) -> String {
    match event {
        Event::Add { chip, address } => format!("ev=add chip={chip} addr={address}"),
        Event::Start => "ev=start".to_string(),
        Event::Stop => "ev=stop".to_string(),
        Event::Put { byte } => format!("ev=put byte={byte}"),
        Event::Get { ack } => format!("ev=get ack={ack}"),
        Event::Wait { device, ticks } => format!("ev=wait dev={device} ticks={ticks}"),
        Event::Oe { device, level } => format!("ev=oe dev={device} level={level}"),
        Event::Ext { device, level } => format!("ev=ext dev={device} level={level}"),
        Event::Reset { device } => format!("ev=reset dev={device}"),
        Event::Lit {
            device,
            output,
            ticks,
        } => format!("ev=lit dev={device} out={output} ticks={ticks}"),
        Event::Pin { device, output } => format!("ev=pin dev={device} out={output}"),
    }
}

#[cfg(test)]
mod tests {
    use super::*;

    #[test]
    fn events_survive_formatting() {
        let events = [
            Event::Add {
                chip: 9635,
                address: 21,
            },
            Event::Start,
            Event::Stop,
            Event::Put { byte: 42 },
            Event::Get { ack: 0 },
            Event::Wait {
                device: 0,
                ticks: 256,
            },
            Event::Oe {
                device: 0,
                level: 1,
            },
            Event::Ext {
                device: 0,
                level: 255,
            },
            Event::Reset { device: 0 },
            Event::Lit {
                device: 0,
                output: 0,
                ticks: 999_999_999_999_999,
            },
            Event::Pin {
                device: 0,
                output: 0,
            },
        ];
        for event in events {
            assert_eq!(parse(format_event(event).as_bytes()), Some(event));
        }
    }

    #[test]
    fn lines_are_split_at_line_feeds() {
        let split = |input: &'static str| lines(input.as_bytes()).count();
        assert_eq!(split(""), 0);
        assert_eq!(split("\n"), 1);
        assert_eq!(split("a"), 1);
        assert_eq!(split("a\n"), 1);
        assert_eq!(split("a\n\n"), 2);
        assert_eq!(split("a\nb"), 2);
    }

    #[test]
    fn other_shapes_are_refused() {
        let wrong = [
            "",
            "ev=start ",
            " ev=start",
            "ev=start\r",
            "ev=put byte=",
            "ev=put byte=00",
            "ev=put byte=01",
            "ev=put byte=+1",
            "ev=put  byte=1",
            "ev=put byte=1000000000000000",
            "ev=put byte=1 byte=1",
            "ev=wait ticks=1 dev=0",
            "ev=read",
            "ev=startx",
        ];
        for line in wrong {
            assert_eq!(parse(line.as_bytes()), None, "{line:?}");
        }
    }

    #[test]
    fn an_overlong_line_is_one_line() {
        let mut input = vec![b'x'; 5000];
        input.extend_from_slice(b"\nev=start\n");
        assert_eq!(
            run(&input),
            b"n=1 code=4 value=0\nn=2 code=0 value=0\n".to_vec()
        );
    }
}
