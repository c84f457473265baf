//! All replays on the worked cases of the repository, and on numbers.

use plain::{Row, REPLAYS};
use std::fs;
use std::path::{Path, PathBuf};

fn root() -> PathBuf {
    Path::new(env!("CARGO_MANIFEST_DIR")).join("../..")
}

/// Input and output of each case in a folder, with its name.
fn cases(folder: &str) -> Vec<(String, Vec<u8>, Vec<u8>)> {
    let mut cases = Vec::new();
    for entry in fs::read_dir(root().join(folder)).unwrap() {
        let input = entry.unwrap().path();
        if input.extension().is_some_and(|extension| extension == "in") {
            let output = fs::read(input.with_extension("out")).unwrap();
            cases.push((
                input.display().to_string(),
                fs::read(&input).unwrap(),
                output,
            ));
        }
    }
    assert!(!cases.is_empty());
    cases
}

fn text(bytes: &[u8]) -> String {
    String::from_utf8_lossy(bytes).into_owned()
}

fn assert_replays(name: &str, log: &[u8], expected: &[u8]) {
    for (replay, run) in REPLAYS {
        let answers = run(log).answers;
        assert_eq!(text(&answers), text(expected), "{replay}: {name}");
    }
}

#[test]
fn recordings_are_answered() {
    for (name, log, expected) in cases("tests/replays") {
        assert_replays(&name, &log, &expected);
    }
}

/// With one stamp before every line no time passes.
#[test]
fn plain_logs_are_answered_with_equal_stamps() {
    for (name, log, expected) in cases("tests/cases") {
        let mut stamped = Vec::new();
        for line in log.split_inclusive(|&byte| byte == b'\n') {
            stamped.extend_from_slice(b"at=77 ");
            stamped.extend_from_slice(line);
        }
        assert_replays(&name, &stamped, &expected);
    }
}

/// The answers stand in the README, each with an explanation behind it.
#[test]
fn the_recording_of_the_readme_is_answered() {
    let log = fs::read(root().join("examples/recording.log")).unwrap();
    let readme = fs::read_to_string(root().join("README.md")).unwrap();
    let answers = readme.split("## Replay a recorded evening").nth(1).unwrap();
    let answers = answers.split("\n## ").next().unwrap();
    let mut expected = String::new();
    for line in answers.lines().filter(|line| line.starts_with("    n=")) {
        let words: Vec<&str> = line.split_whitespace().take(3).collect();
        expected += &(words.join(" ") + "\n");
    }
    assert_eq!(expected.lines().count(), 28);
    assert_replays("recording.log", &log, expected.as_bytes());
}

/// A line for each output that has waited.
fn lines(row: &Row) -> String {
    let mut text = String::new();
    for (place, totals) in row.chunks(2).enumerate() {
        let [lit, unlit] = [totals[0], totals[1]];
        if lit + unlit != 0 {
            let (board, output) = (place / 16, place % 16);
            text += &format!("dev={board} out={output} lit={lit} unlit={unlit}\n");
        }
    }
    text
}

#[test]
fn totals_are_those_worked_out() {
    for (name, log, expected) in cases("tests/totals") {
        for (replay, run) in REPLAYS {
            let totals = run(&log).totals;
            assert_eq!(lines(&totals), text(&expected), "{replay}: {name}");
        }
    }
}

/// A lamp that is on is lit for as many steps as are asked for.
#[test]
fn numbers_of_every_length_are_read_and_written() {
    let mut log = "at=0 ev=add chip=9531 addr=0\nat=0 ev=start\n".to_string();
    let mut expected = "n=1 code=0 value=0\nn=2 code=0 value=0\n".to_string();
    for (n, byte) in [(3, 192), (4, 5), (5, 1)] {
        log += &format!("at=0 ev=put byte={byte}\n");
        expected += &format!("n={n} code=0 value=1\n");
    }
    let powers = (1..15).map(|digits| 10u64.pow(digits));
    let near_powers = powers.flat_map(|power| [power - 1, power, power + 1, power / 7 * 5]);
    let values = (0..20_000)
        .chain(near_powers)
        .chain([(1 << 48) - 1, 1 << 48]);
    for (index, value) in values.enumerate() {
        log += &format!("at=0 ev=lit dev=0 out=0 ticks={value}\n");
        expected += &format!("n={} code=0 value={value}\n", index + 6);
    }
    assert_replays("numbers", log.as_bytes(), expected.as_bytes());
}

#[test]
fn other_numbers_are_refused() {
    let digits = [
        "",
        "00",
        "01",
        "1000000000000000",
        "12345678x",
        "\u{80}",
        "1:",
        "1/",
    ];
    for digits in digits.into_iter().chain(["4294967296"]) {
        let log = format!("at={digits} ev=start\nat=4294967295 ev=start\n");
        let expected = b"n=1 code=4 value=0\nn=2 code=0 value=0\n";
        assert_replays(digits, log.as_bytes(), expected);
    }
}
