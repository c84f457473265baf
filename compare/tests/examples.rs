//! The owner's worked log and the marked examples of docs/RULES.md, as text.
//! Example 12 has no text line.

use compare::text;

/// The values of all answers; every line must be accepted.
fn values(log: &str) -> Vec<u64> {
    let output = String::from_utf8(text::run(log.as_bytes())).unwrap();
    output
        .lines()
        .map(|line| {
            assert!(line.contains(" code=0 "), "{line}");
            line.rsplit('=').next().unwrap().parse().unwrap()
        })
        .collect()
}

fn last_values(log: &str, count: usize) -> Vec<u64> {
    let values = values(log);
    values[values.len() - count..].to_vec()
}

fn add(chip: u64, address: u64) -> String {
    format!("ev=add chip={chip} addr={address}\n")
}

/// START and the bytes of a write, without STOP.
fn write(bytes: &[u8]) -> String {
    let puts: String = bytes
        .iter()
        .map(|byte| format!("ev=put byte={byte}\n"))
        .collect();
    format!("ev=start\n{puts}")
}

fn message(bytes: &[u8]) -> String {
    format!("{}ev=stop\n", write(bytes))
}

/// Reads one byte of a register of the device at 7-bit address 21.
fn read_one(control: u8) -> String {
    format!("{}{}ev=get ack=0\n", write(&[42, control]), write(&[43]))
}

/// A 9635 at address 21, awake, then the given bytes written to registers.
fn awake_9635(registers: &[(u8, u8)]) -> String {
    let mut log = add(9635, 21) + &message(&[42, 0, 1]);
    for &(register, byte) in registers {
        log += &message(&[42, register, byte]);
    }
    log
}

#[test]
fn the_listing() {
    let log = add(9635, 21)
        + &message(&[42, 0, 1])
        + &write(&[42, 2, 64])
        + &message(&[42, 20, 2])
        + "ev=lit dev=0 out=0 ticks=256\nev=pin dev=0 out=0\nev=get ack=0\n";
    let expected = [
        "n=1 code=0 value=0",
        "n=2 code=0 value=0",
        "n=3 code=0 value=1",
        "n=4 code=0 value=1",
        "n=5 code=0 value=1",
        "n=6 code=0 value=0",
        "n=7 code=0 value=0",
        "n=8 code=0 value=1",
        "n=9 code=0 value=1",
        "n=10 code=0 value=1",
        "n=11 code=0 value=0",
        "n=12 code=0 value=1",
        "n=13 code=0 value=1",
        "n=14 code=0 value=1",
        "n=15 code=0 value=0",
        "n=16 code=0 value=64",
        "n=17 code=0 value=0",
        "n=18 code=5 value=0",
    ];
    let output = String::from_utf8(text::run(log.as_bytes())).unwrap();
    assert_eq!(output, expected.join("\n") + "\n");
}

#[test]
fn example_1_fresh_9635() {
    let log = add(9635, 21) + &write(&[43]) + "ev=get ack=1\nev=get ack=0\n";
    assert_eq!(last_values(&log, 2), [0x91, 0x05]);
}

#[test]
fn example_2_control_byte() {
    let log = add(9635, 21) + &write(&[42, 0x9B]);
    assert_eq!(last_values(&log, 1), [1]);
    let log = add(9635, 21) + &write(&[42, 0x9C]);
    assert_eq!(last_values(&log, 1), [0]);
}

#[test]
fn example_3_option_111_at_its_last() {
    let log = add(9634, 21) + &message(&[42, 0xEB, 7, 8]) + &read_one(0x02);
    assert_eq!(last_values(&log, 1), [8]);
}

#[test]
fn example_4_option_111_at_the_chips_last() {
    let log = add(9634, 21) + &message(&[42, 0xF1, 0xE0, 0x0B]) + &read_one(0x00);
    assert_eq!(last_values(&log, 1), [0x0B]);
}

#[test]
fn example_5_software_reset() {
    let setup = add(9635, 21) + &message(&[42, 0x02, 64]);
    let right = setup.clone() + &message(&[0x06, 0xA5, 0x5A]) + &read_one(0x02);
    assert_eq!(last_values(&right, 1), [0]);
    let long = setup + &message(&[0x06, 0xA5, 0x5A, 0x00]) + &read_one(0x02);
    assert_eq!(last_values(&long, 1), [64]);
}

#[test]
fn example_6_address_register() {
    let log = add(9635, 21) + &message(&[42, 0x18, 0xE3]) + &read_one(0x18);
    assert_eq!(last_values(&log, 1), [0xE2]);
}

#[test]
fn example_7_individual_brightness() {
    let log = awake_9635(&[(2, 64), (20, 2)]) + "ev=lit dev=0 out=0 ticks=100\n";
    assert_eq!(last_values(&log, 1), [64]);
}

#[test]
fn example_8_lower_bound() {
    let log =
        awake_9635(&[(2, 64), (20, 2)]) + "ev=wait dev=0 ticks=64\nev=lit dev=0 out=0 ticks=192\n";
    assert_eq!(last_values(&log, 1), [0]);
    assert_eq!(192 * 64, 12_288);
}

#[test]
fn example_9_group_dimming() {
    let log = awake_9635(&[(2, 64), (0x12, 1), (20, 3)]) + "ev=lit dev=0 out=0 ticks=320\n";
    assert_eq!(last_values(&log, 1), [128]);
    assert_eq!(65_536 * 128 - 320 * 64, 8_368_128);
}

#[test]
fn example_10_blink0_of_9531() {
    let log = add(9531, 0)
        + &message(&[0xC0, 0x01, 1])
        + &message(&[0xC0, 0x02, 128])
        + &message(&[0xC0, 0x05, 2])
        + "ev=lit dev=0 out=0 ticks=512\n";
    assert_eq!(last_values(&log, 1), [256]);
}

#[test]
fn example_11_blink0_of_9551() {
    let log = add(9551, 0)
        + &message(&[0xC0, 0x02, 0])
        + &message(&[0xC0, 0x05, 2])
        + "ev=lit dev=0 out=0 ticks=1000000\n";
    assert_eq!(last_values(&log, 1), [1_000_000]);
}
