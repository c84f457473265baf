//! Made-up texts of settings, right ones and wrong ones.

use crate::generate::{damage_bytes, Random, EDGE_BYTES};
use crate::store::setting::{Setting, KINDS};

const ADDRESSES: [u8; 12] = [0, 1, 2, 4, 5, 7, 21, 22, 111, 113, 126, 127];

/// Behind `chip=`: unknown kinds, known ones after being cut to fewer bits,
/// and no decimals.
const WRONG_CHIPS: [&str; 14] = [
    "0",
    "1",
    "9530",
    "9636",
    "635",
    "75171",
    "4294976931",
    "999999999999999",
    "1000000000009635",
    "09635",
    "9635 ",
    "9551\r",
    "+9531",
    "",
];

/// Behind `addr=`: barred ones, allowed ones after being cut to fewer bits,
/// and no decimals.
const WRONG_ADDRESSES: [&str; 17] = [
    "3",
    "8",
    "101",
    "112",
    "128",
    "255",
    "256",
    "261",
    "277",
    "4294967301",
    "999999999999999",
    "1000000000000005",
    "05",
    "+5",
    "5\r",
    "128\r",
    "",
];

/// Behind the `=` of any line.
const WRONG_NUMBERS: [&str; 18] = [
    "256",
    "257",
    "511",
    "1000",
    "65536",
    "4294967296",
    "999999999999999",
    "1000000000000000",
    "0000000000000001",
    "00",
    "01",
    "-1",
    "+1",
    " 1",
    "1 ",
    "1\r",
    "0x1",
    "",
];

const WRONG_ENDS: [&str; 10] = [
    "\n",
    " ",
    "\0",
    "\r",
    "\r\n",
    "r0=0\n",
    "r7=0\n",
    "r18=0\n",
    "r28=0\n",
    "chip=9531\n",
];

/// Each spoils a text, or now and then leaves it right.
const DAMAGES: [fn(&mut Random, &mut Vec<u8>); 10] = [
    damage_bytes,
    cut,
    end_otherwise,
    spoil_chip,
    spoil_address,
    spoil_number,
    lead_with_zero,
    move_lines,
    rename_line,
    write_other_line_ends,
];

pub fn right(random: &mut Random) -> Setting {
    let kind = *random.pick(&KINDS);
    let allowed: Vec<u8> = ADDRESSES
        .into_iter()
        .filter(|&address| kind.allows(address.into()))
        .collect();
    let plain = random.chance(20).then(|| *random.pick(&[0, 255]));
    let register = |_| plain.unwrap_or_else(|| register_byte(random));
    let registers = kind.registers().map(register).collect();
    Setting {
        kind,
        address: *random.pick(&allowed),
        registers,
    }
}

fn register_byte(random: &mut Random) -> u8 {
    if random.chance(50) {
        *random.pick(&EDGE_BYTES)
    } else {
        random.byte()
    }
}

/// A text with one, two or three damages.
pub fn wrong(random: &mut Random) -> Vec<u8> {
    let mut text = right(random).text();
    let damages = *random.pick(&[1, 1, 1, 2, 2, 3]);
    for _ in 0..damages {
        let damage = random.pick(&DAMAGES);
        damage(random, &mut text);
    }
    text
}

/// The lines, each with its line feed if it has one.
fn lines_of(text: &[u8]) -> Vec<Vec<u8>> {
    let lines = text.split_inclusive(|&byte| byte == b'\n');
    lines.map(<[u8]>::to_vec).collect()
}

/// Ends the text early, at any byte or at the end of a line.
fn cut(random: &mut Random, text: &mut Vec<u8>) {
    if random.chance(50) {
        text.truncate(random.index(text.len() + 1));
    } else {
        let mut lines = lines_of(text);
        lines.truncate(random.index(lines.len() + 1));
        *text = lines.concat();
    }
}

fn end_otherwise(random: &mut Random, text: &mut Vec<u8>) {
    match random.below(4) {
        0 => drop(text.pop()),
        1 => text.extend(right(random).text()),
        _ => text.extend_from_slice(random.pick(&WRONG_ENDS).as_bytes()),
    }
}

/// Puts other digits behind the `=` of a line, if it has one.
fn renumber(text: &mut Vec<u8>, line: usize, digits: &str) {
    let mut lines = lines_of(text);
    if let Some(line) = lines.get_mut(line) {
        if let Some(equals) = line.iter().position(|&byte| byte == b'=') {
            let end = line.len() - line.ends_with(b"\n") as usize;
            line.splice(equals + 1..end, digits.bytes());
        }
    }
    *text = lines.concat();
}

fn spoil_chip(random: &mut Random, text: &mut Vec<u8>) {
    let digits = random.pick(&WRONG_CHIPS);
    renumber(text, 0, digits);
}

fn spoil_address(random: &mut Random, text: &mut Vec<u8>) {
    let digits = random.pick(&WRONG_ADDRESSES);
    renumber(text, 1, digits);
}

/// The last line has the last register.
fn spoil_number(random: &mut Random, text: &mut Vec<u8>) {
    let lines = lines_of(text).len();
    let last = lines.saturating_sub(1);
    let any = random.index(lines + 1);
    let line = *random.pick(&[last, any]);
    let digits = random.pick(&WRONG_NUMBERS);
    renumber(text, line, digits);
}

fn lead_with_zero(random: &mut Random, text: &mut Vec<u8>) {
    let is_equals = |place: &usize| text[*place] == b'=';
    let places: Vec<usize> = (0..text.len()).filter(is_equals).collect();
    if !places.is_empty() {
        text.insert(random.pick(&places) + 1, b'0');
    }
}

/// Swaps, drops, doubles or joins lines.
fn move_lines(random: &mut Random, text: &mut Vec<u8>) {
    let mut lines = lines_of(text);
    if lines.is_empty() {
        return;
    }
    let (one, other) = (random.index(lines.len()), random.index(lines.len()));
    match random.below(5) {
        0 => lines.swap(one, other),
        1 => drop(lines.remove(one)),
        2 => lines.insert(other, lines[one].clone()),
        3 => lines.insert(other, b"\n".to_vec()),
        _ => drop(lines[one].pop()),
    }
    *text = lines.concat();
}

/// Puts another key before a line's number.
fn rename_line(random: &mut Random, text: &mut Vec<u8>) {
    let mut lines = lines_of(text);
    if lines.is_empty() {
        return;
    }
    let line = random.index(lines.len());
    let number = line.saturating_sub(2);
    let key = match random.below(6) {
        0 => format!("r{}", number + 1),
        1 => format!("r0{number}"),
        2 => format!("R{number}"),
        3 => format!(" r{number}"),
        4 => "chip".to_string(),
        _ => "addr".to_string(),
    };
    let line = &mut lines[line];
    let end = line.iter().position(|&byte| byte == b'=').unwrap_or(0);
    line.splice(..end, key.into_bytes());
    *text = lines.concat();
}

/// As other systems end their lines.
fn write_other_line_ends(random: &mut Random, text: &mut Vec<u8>) {
    let end: &[u8] = random.pick(&["\r\n", "\r", " \n"]).as_bytes();
    let lines: Vec<&[u8]> = text.split(|&byte| byte == b'\n').collect();
    *text = lines.join(end);
}
