//! Answer lines. Most of a line is that of the last one, so its head is kept
//! as text and counted on in place.

/// Bytes of a line that are written at once, its head and the longest value
/// with its line feed among them; what is too many is taken away again.
const ROOM: usize = 48;

/// `n=` and the digits behind it; then this, for an accepted line.
const FIRST_DIGIT: usize = 2;
const DONE: &[u8; 14] = b" code=0 value=";

/// The texts of small values, each with its line feed.
const SMALL: [[u8; 4]; 256] = small_values();

pub struct Answers {
    bytes: Vec<u8>,
    /// The head of the next line.
    head: [u8; ROOM],
    last_digit: usize,
}

impl Answers {
    pub fn with_room(bytes: usize) -> Answers {
        let mut answers = Answers {
            bytes: Vec::with_capacity(bytes + ROOM),
            head: [0; ROOM],
            last_digit: FIRST_DIGIT,
        };
        answers.head[..3].copy_from_slice(b"n=1");
        answers.write_rest_of_head();
        answers
    }

    pub fn into_bytes(self) -> Vec<u8> {
        self.bytes
    }

    pub fn bytes(&self) -> &[u8] {
        &self.bytes
    }

    /// Makes room anew; the lines are counted on.
    pub fn clear(&mut self) {
        self.bytes.clear();
    }

    fn write_rest_of_head(&mut self) {
        let start = self.last_digit + 1;
        self.head[start..start + DONE.len()].copy_from_slice(DONE);
    }

    /// The answer to an accepted line.
    #[inline(always)]
    pub fn done(&mut self, value: u64) {
        let start = self.bytes.len();
        self.bytes.extend_from_slice(&self.head);
        let line: &mut [u8; ROOM] = self.bytes[start..].first_chunk_mut().expect("just added");
        let at = (self.last_digit + 1 + DONE.len()) & 31;
        let length = match SMALL.get(value as usize) {
            Some(text) => {
                line[at..at + 4].copy_from_slice(text);
                at + 2 + usize::from(value > 9) + usize::from(value > 99)
            }
            None => at + write_value(&mut line[at..], value),
        };
        self.bytes.truncate(start + length);
        self.count_on();
    }

    /// The answer to a refused one.
    #[inline(never)]
    pub fn refused(&mut self, number: u64) {
        self.bytes.extend_from_slice(&self.head[..=self.last_digit]);
        self.bytes.extend_from_slice(b" code=");
        self.bytes.extend_from_slice(number.to_string().as_bytes());
        self.bytes.extend_from_slice(b" value=0\n");
        self.count_on();
    }

    #[inline(always)]
    fn count_on(&mut self) {
        let digit = &mut self.head[self.last_digit & 31];
        if *digit == b'9' {
            self.carry();
        } else {
            *digit += 1;
        }
    }

    #[inline(never)]
    fn carry(&mut self) {
        let mut at = self.last_digit;
        while self.head[at] == b'9' {
            self.head[at] = b'0';
            at -= 1;
        }
        if at >= FIRST_DIGIT {
            self.head[at] += 1;
        } else {
            self.last_digit += 1;
            self.head[self.last_digit] = b'0';
            self.head[FIRST_DIGIT] = b'1';
            self.write_rest_of_head();
        }
    }
}

/// Writes a value below 10^16 and a line feed; gives their length.
fn write_value(line: &mut [u8], value: u64) -> usize {
    const HALF: u64 = 100_000_000;
    if value < HALF {
        return write_short_value(line, value);
    }
    let length = write_short_value(line, value / HALF) - 1;
    let low = eight_digits(value % HALF) | ZEROS;
    line[length..length + 8].copy_from_slice(&low.to_le_bytes());
    line[length + 8] = b'\n';
    length + 9
}

const ZEROS: u64 = 0x3030_3030_3030_3030;

/// The same of a value from 1 to 10^8 - 1.
fn write_short_value(line: &mut [u8], value: u64) -> usize {
    let digits = eight_digits(value);
    let zeros = digits.trailing_zeros() / 8;
    let text = (digits | ZEROS) >> (8 * zeros);
    let length = 8 - zeros as usize;
    line[..8].copy_from_slice(&text.to_le_bytes());
    line[length] = b'\n';
    length + 1
}

/// The digits of a value below 10^8, a byte each, the first one lowest: fours,
/// then pairs, then single ones, each by a multiplication in place of a
/// division.
fn eight_digits(value: u64) -> u64 {
    let fours = (value / 10_000) | ((value % 10_000) << 32);
    let hundreds = ((fours * 10_486) >> 20) & 0x0000_007F_0000_007F;
    let pairs = hundreds | ((fours - 100 * hundreds) << 16);
    let tens = ((pairs * 103) >> 10) & 0x000F_000F_000F_000F;
    tens | ((pairs - 10 * tens) << 8)
}

const fn small_values() -> [[u8; 4]; 256] {
    let mut texts = [[0; 4]; 256];
    let mut value = 0;
    while value < 256 {
        let [hundreds, tens, ones] = [value / 100, value / 10 % 10, value % 10];
        let [hundreds, tens, ones] = [b'0' + hundreds as u8, b'0' + tens as u8, b'0' + ones as u8];
        texts[value] = if value > 99 {
            [hundreds, tens, ones, b'\n']
        } else if value > 9 {
            [tens, ones, b'\n', 0]
        } else {
            [ones, b'\n', 0, 0]
        };
        value += 1;
    }
    texts
}
