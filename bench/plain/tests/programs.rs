//! All programs, from standard input to standard output.

use plain::obvious;
use std::io::Write;
use std::process::{Command, Stdio};
use std::thread;

const PROGRAMS: [&str; 3] = [
    env!("CARGO_BIN_EXE_obvious"),
    env!("CARGO_BIN_EXE_prompt"),
    env!("CARGO_BIN_EXE_best"),
];

/// What a program writes, fed with pieces of so many bytes.
fn output(program: &str, log: &[u8], piece: usize) -> Vec<u8> {
    let mut child = Command::new(program)
        .stdin(Stdio::piped())
        .stdout(Stdio::piped())
        .spawn()
        .unwrap();
    let mut input = child.stdin.take().unwrap();
    thread::scope(|scope| {
        scope.spawn(move || {
            for piece in log.chunks(piece) {
                input.write_all(piece).unwrap();
            }
        });
        child.wait_with_output().unwrap().stdout
    })
}

fn assert_answered(log: &[u8], piece: usize) {
    let expected = obvious::run(log).answers;
    for program in PROGRAMS {
        assert!(output(program, log, piece) == expected, "{program}");
    }
}

#[test]
fn logs_are_answered_in_any_pieces() {
    let mut log = b"at=5 ev=add chip=9635 addr=21\n".to_vec();
    for stamp in 0..20_000 {
        writeln!(
            log,
            "at={} ev=lit dev=0 out=3 ticks={}",
            stamp,
            stamp * stamp
        )
        .unwrap();
    }
    for piece in [100, 4_099, 65_536, 1 << 20] {
        assert_answered(&log, piece);
    }
}

#[test]
fn no_line_is_too_long() {
    let mut log = b"at=5 ev=start\n".to_vec();
    for length in [79, 80, 81, 82, 83, 84, 65_536, 65_619, 65_620, 300_000] {
        log.extend_from_slice(b"at=5 ev=put byte=6");
        log.resize(log.len() + length, b' ');
        log.push(b'\n');
        log.extend_from_slice(b"at=5 ev=start\n");
    }
    assert_answered(&log, 1 << 20);
    assert_answered(&log, 1_000);
}

#[test]
fn the_last_line_feed_may_lack() {
    for log in [
        "",
        "\n",
        "at=5 ev=start",
        "at=5 ev=start\n\n",
        "at=5 ev=star",
    ] {
        assert_answered(log.as_bytes(), 3);
    }
}
