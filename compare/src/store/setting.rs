//! A setting: "how a board was set up", as text and as values.

use crate::model::{BAD_ADDRESS, UNKNOWN_CHIP};
use crate::store::WRONG_SHAPE;
use crate::text::decimal;
use std::ops::RangeInclusive;

#[derive(Clone, Copy, Debug, PartialEq, Eq)]
pub enum Kind {
    Pca9635,
    Pca9634,
    Pca9531,
    Pca9551,
}

/// A kind's index here is its byte in a store.
pub const KINDS: [Kind; 4] = [Kind::Pca9635, Kind::Pca9634, Kind::Pca9531, Kind::Pca9551];

impl Kind {
    /// The number in the text.
    pub fn chip(self) -> u64 {
        match self {
            Kind::Pca9635 => 9635,
            Kind::Pca9634 => 9634,
            Kind::Pca9531 => 9531,
            Kind::Pca9551 => 9551,
        }
    }

    fn of_chip(chip: u64) -> Option<Kind> {
        KINDS.into_iter().find(|kind| kind.chip() == chip)
    }

    /// The numbers of the writable registers: a blinker's INPUT is not one.
    pub fn registers(self) -> RangeInclusive<u8> {
        match self {
            Kind::Pca9635 => 0..=27,
            Kind::Pca9634 => 0..=17,
            Kind::Pca9531 | Kind::Pca9551 => 1..=6,
        }
    }

    /// "Hardware address not allowed: drivers above 127, or 3, or 112;
    /// blinkers above 7."
    pub fn allows(self, address: u64) -> bool {
        match self {
            Kind::Pca9635 | Kind::Pca9634 => address <= 127 && address != 3 && address != 112,
            Kind::Pca9531 | Kind::Pca9551 => address <= 7,
        }
    }
}

#[derive(Clone, Debug, PartialEq, Eq)]
pub struct Setting {
    pub kind: Kind,
    pub address: u8,
    /// Of the writable registers, in map order.
    pub registers: Vec<u8>,
}

impl Setting {
    /// Reads the text of a setting, or gives the number of its refusal. An
    /// unknown kind or a barred address is refused as such, whatever follows
    /// its line; anything else that is wrong is a wrong shape.
    pub fn parse(text: &[u8]) -> Result<Setting, u64> {
        let mut rest = text;
        let chip = take_line(&mut rest, "chip=").ok_or(WRONG_SHAPE)?;
        let kind = Kind::of_chip(chip).ok_or(UNKNOWN_CHIP)?;
        let address = take_line(&mut rest, "addr=").ok_or(WRONG_SHAPE)?;
        if !kind.allows(address) {
            return Err(BAD_ADDRESS);
        }
        let mut registers = Vec::new();
        for register in kind.registers() {
            let value = take_line(&mut rest, &format!("r{register}=")).ok_or(WRONG_SHAPE)?;
            registers.push(u8::try_from(value).or(Err(WRONG_SHAPE))?);
        }
        if !rest.is_empty() {
            return Err(WRONG_SHAPE);
        }
        Ok(Setting {
            kind,
            address: address as u8,
            registers,
        })
    }

    /// "`chip=`, `addr=`, then each writable register in map order as `r`, its
    /// register number in decimal and `=`, a decimal and a line feed each."
    pub fn text(&self) -> Vec<u8> {
        let mut text = format!("chip={}\naddr={}\n", self.kind.chip(), self.address);
        for (register, value) in self.kind.registers().zip(&self.registers) {
            text += &format!("r{register}={value}\n");
        }
        text.into_bytes()
    }
}

/// Takes a whole line off the front of the text, its line feed included, and
/// gives the number behind its key.
fn take_line(text: &mut &[u8], key: &str) -> Option<u64> {
    let end = text.iter().position(|&byte| byte == b'\n')?;
    let number = decimal(text[..end].strip_prefix(key.as_bytes())?)?;
    *text = &text[end + 1..];
    Some(number)
}

#[cfg(test)]
pub mod tests {
    use super::*;

    /// Fresh boards of the four kinds, line feeds written as `|`, with their
    /// lengths in bytes.
    pub const FRESH_BOARDS: [(&str, usize); 4] = [
        ("chip=9635|addr=21|r0=145|r1=5|r2=0|r3=0|r4=0|r5=0|r6=0|r7=0|r8=0|r9=0|r10=0|r11=0|r12=0|r13=0|r14=0|r15=0|r16=0|r17=0|r18=255|r19=0|r20=0|r21=0|r22=0|r23=0|r24=226|r25=228|r26=232|r27=224|", 188),
        ("chip=9634|addr=21|r0=145|r1=5|r2=0|r3=0|r4=0|r5=0|r6=0|r7=0|r8=0|r9=0|r10=255|r11=0|r12=0|r13=0|r14=226|r15=228|r16=232|r17=224|", 128),
        ("chip=9531|addr=5|r1=0|r2=128|r3=0|r4=128|r5=0|r6=0|", 51),
        ("chip=9551|addr=5|r1=255|r2=128|r3=255|r4=128|r5=85|r6=85|", 57),
    ];

    /// The bytes of a text whose line feeds are written as `|`.
    pub fn bytes(text: &str) -> Vec<u8> {
        text.replace('|', "\n").into_bytes()
    }

    /// The number that a text is refused with.
    fn refusal(text: &str) -> u64 {
        Setting::parse(&bytes(text)).expect_err(text)
    }

    #[test]
    fn settings_of_fresh_boards_come_back_whole() {
        for ((text, length), kind) in FRESH_BOARDS.into_iter().zip(KINDS) {
            let setting = Setting::parse(&bytes(text)).unwrap();
            assert_eq!(setting.kind, kind);
            assert_eq!(setting.text(), bytes(text));
            assert_eq!(setting.text().len(), length);
        }
    }

    #[test]
    fn values_are_those_of_the_lines() {
        let setting = Setting::parse(&bytes(
            "chip=9531|addr=7|r1=1|r2=20|r3=3|r4=255|r5=0|r6=60|",
        ));
        let expected = Setting {
            kind: Kind::Pca9531,
            address: 7,
            registers: vec![1, 20, 3, 255, 0, 60],
        };
        assert_eq!(setting, Ok(expected));
    }

    /// All other bytes than the chip's digits and the registers' are fixed.
    #[test]
    fn the_longest_text_has_233_bytes() {
        let setting = Setting {
            kind: Kind::Pca9635,
            address: 127,
            registers: vec![255; 28],
        };
        assert_eq!(setting.text().len(), 233);
    }

    #[test]
    fn an_unknown_kind_is_refused_whatever_follows() {
        let (rest, _) = FRESH_BOARDS[2];
        let rest = rest.strip_prefix("chip=9531|").unwrap();
        for chip in ["0", "9532", "9636", "999999999999999"] {
            assert_eq!(refusal(&format!("chip={chip}|{rest}")), 1);
            assert_eq!(refusal(&format!("chip={chip}|addr=200|")), 1);
            assert_eq!(refusal(&format!("chip={chip}|")), 1);
            assert_eq!(refusal(&format!("chip={chip}|\r\0")), 1);
            assert_eq!(refusal(&format!("chip={chip}")), 4);
            assert_eq!(refusal(&format!("chip={chip}\r|")), 4);
        }
    }

    #[test]
    fn a_barred_address_is_refused_whatever_follows() {
        let barred = [
            ("9635", ["3", "112", "128", "999999999999999"]),
            ("9634", ["3", "112", "128", "4294967317"]),
            ("9531", ["8", "101", "128", "256"]),
            ("9551", ["8", "96", "127", "261"]),
        ];
        for (chip, addresses) in barred {
            for address in addresses {
                assert_eq!(refusal(&format!("chip={chip}|addr={address}|")), 2);
                assert_eq!(refusal(&format!("chip={chip}|addr={address}|r0=256")), 2);
                assert_eq!(refusal(&format!("chip={chip}|addr={address}")), 4);
                assert_eq!(refusal(&format!("chip={chip}|addr=0{address}|")), 4);
            }
        }
    }

    #[test]
    fn allowed_addresses_are_taken() {
        let (driver, blinker) = (FRESH_BOARDS[1].0, FRESH_BOARDS[3].0);
        for address in [0, 2, 4, 111, 113, 127] {
            let text = driver.replace("addr=21", &format!("addr={address}"));
            assert_eq!(Setting::parse(&bytes(&text)).unwrap().address, address);
        }
        for pins in 0..8 {
            let text = blinker.replace("addr=5", &format!("addr={pins}"));
            assert_eq!(Setting::parse(&bytes(&text)).unwrap().address, pins);
        }
    }

    #[test]
    fn a_register_is_at_most_255() {
        let text = |value: &str| FRESH_BOARDS[2].0.replace("r6=0", &format!("r6={value}"));
        assert!(Setting::parse(&bytes(&text("255"))).is_ok());
        for value in ["256", "511", "65536", "4294967296", "999999999999999"] {
            assert_eq!(refusal(&text(value)), 4);
        }
    }

    #[test]
    fn other_shapes_are_refused() {
        let (right, _) = FRESH_BOARDS[2];
        let wrong = [
            ("r3=0|", ""),
            ("r3=0|", "r3=0|r3=0|"),
            ("r2=128|r3=0|", "r3=0|r2=128|"),
            ("r1=", "r0=145|r1="),
            ("r6=0|", "r6=0|r7=0|"),
            ("r6=0|", "r6=0"),
            ("r6=0|", "r6=0||"),
            ("r6=0|", "r6=0| "),
            ("r6=0|", "r6=0\r|"),
            ("r6=0|", "r6=00|"),
            ("r6=0|", "r6=+0|"),
            ("r6=0|", "r6=|"),
            ("r6=0|", "r6=0000000000000000|"),
            ("r2=", "r02="),
            ("r2=", "R2="),
            ("r2=128|", "r2=0128|"),
            ("r2=128|", "r2=1000000000000000|"),
            ("addr=5|", ""),
            ("addr=5|", "addr= 5|"),
            ("chip=9531|addr=5|", "addr=5|chip=9531|"),
            ("chip=9531|addr=5|", "chip=9531 addr=5|"),
            ("chip=9531", "chip=09531"),
            ("chip=9531", "chip=1000000000009531"),
            ("chip=9531", " chip=9531"),
        ];
        for (part, other) in wrong {
            assert!(right.contains(part));
            assert_eq!(refusal(&right.replacen(part, other, 1)), 4, "{other}");
        }
        assert_eq!(refusal(""), 4);
        assert_eq!(refusal("|"), 4);
    }
}
