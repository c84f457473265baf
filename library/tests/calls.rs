//! The linked library on the worked cases, and at the edges of its buffers.

use lamptwin::{lines, replay, replay_into, run, run_into, TooShort, ANSWER_ROOM};
use lamptwin::{totals, totals_into, RowTooShort, TOTALS_ROOM};
use std::fs;

mod library {
    extern "C" {
        pub fn lamptwin_run(
            log: *const u8,
            log_length: usize,
            answers: *mut u8,
            answers_length: usize,
        ) -> usize;
        pub fn lamptwin_replay(
            log: *const u8,
            log_length: usize,
            answers: *mut u8,
            answers_length: usize,
        ) -> usize;
        pub fn lamptwin_totals(
            log: *const u8,
            log_length: usize,
            totals: *mut u64,
            totals_length: usize,
        ) -> u64;
    }
}

/// A call of the wrapper in both its forms, the library's own, and a log of
/// two lines for it, without the last line feed.
struct Call {
    whole: fn(&[u8]) -> Vec<u8>,
    into: fn(&[u8], &mut [u8]) -> Result<usize, TooShort>,
    bare: unsafe extern "C" fn(*const u8, usize, *mut u8, usize) -> usize,
    two_lines: &'static [u8],
}

const RUN: Call = Call {
    whole: run,
    into: run_into,
    bare: library::lamptwin_run,
    two_lines: b"ev=start\nev=stop",
};

const REPLAY: Call = Call {
    whole: replay,
    into: replay_into,
    bare: library::lamptwin_replay,
    two_lines: b"at=4294967295 ev=start\nat=0 ev=stop",
};

const CALLS: [Call; 2] = [RUN, REPLAY];

const TWO_ANSWERS: &[u8] = b"n=1 code=0 value=0\nn=2 code=0 value=0\n";

impl Call {
    /// What the library itself gives, without the wrapper's tests.
    fn bare(&self, log: &[u8], answers: &mut [u8]) -> usize {
        // SAFETY: the pointers are valid for the lengths given.
        unsafe { (self.bare)(log.as_ptr(), log.len(), answers.as_mut_ptr(), answers.len()) }
    }
}

/// The same for the totals.
fn bare_totals(log: &[u8], totals: &mut [u64]) -> u64 {
    let (start, length) = (totals.as_mut_ptr(), totals.len());
    // SAFETY: the pointers are valid for the lengths given.
    unsafe { library::lamptwin_totals(log.as_ptr(), log.len(), start, length) }
}

/// A line for each output that has waited, by position, then output.
fn totals_as_text(log: &[u8]) -> Vec<u8> {
    let row = totals(log);
    let waited = (0..TOTALS_ROOM)
        .step_by(2)
        .filter(|&place| row[place..place + 2] != [0, 0]);
    let line = |place: usize| {
        let (position, output) = (place / 32, place % 32 / 2);
        let (lit, unlit) = (row[place], row[place + 1]);
        format!("dev={position} out={output} lit={lit} unlit={unlit}\n")
    };
    waited.map(line).collect::<String>().into_bytes()
}

fn assert_cases_answered(folder: &str, answer: fn(&[u8]) -> Vec<u8>) {
    let folder = format!("{}/../tests/{folder}", env!("CARGO_MANIFEST_DIR"));
    let mut compared = 0;
    for entry in fs::read_dir(folder).unwrap() {
        let path = entry.unwrap().path();
        if path.extension().is_some_and(|extension| extension == "in") {
            let log = fs::read(&path).unwrap();
            let expected = fs::read(path.with_extension("out")).unwrap();
            assert!(answer(&log) == expected, "{}", path.display());
            compared += 1;
        }
    }
    assert!(compared > 0);
}

#[test]
fn worked_cases_are_answered() {
    assert_cases_answered("cases", run);
}

#[test]
fn worked_replays_are_answered() {
    assert_cases_answered("replays", replay);
}

#[test]
fn worked_totals_are_given() {
    assert_cases_answered("totals", totals_as_text);
}

#[test]
fn the_first_example_of_the_readme() {
    let answers = run(b"ev=add chip=9635 addr=21\nev=start\n");
    assert_eq!(answers, b"n=1 code=0 value=0\nn=2 code=0 value=0\n");
}

/// Woken at 4294967290, the driver stands at tick 3 by the STOP, at 8 when the
/// stamps have rolled over to 2, and at 9 after the refused line.
const ROLL_OVER: &[u8] = b"at=4294967200 ev=add chip=9635 addr=21
at=4294967210 ev=start
at=4294967220 ev=put byte=42
at=4294967230 ev=put byte=128
at=4294967290 ev=put byte=1
at=4294967290 ev=put byte=5
at=4294967290 ev=put byte=64
at=4294967291 ev=start
at=4294967291 ev=put byte=42
at=4294967291 ev=put byte=20
at=4294967291 ev=put byte=2
at=4294967293 ev=stop
at=4294967293 ev=lit dev=0 out=0 ticks=64
at=2 ev=lit dev=0 out=0 ticks=64
at=7 ev=stop
at=3 ev=lit dev=0 out=0 ticks=64
";

const ROLL_OVER_ANSWERS: &str = "n=1 code=0 value=0
n=2 code=0 value=0
n=3 code=0 value=1
n=4 code=0 value=1
n=5 code=0 value=1
n=6 code=0 value=1
n=7 code=0 value=1
n=8 code=0 value=0
n=9 code=0 value=1
n=10 code=0 value=1
n=11 code=0 value=1
n=12 code=0 value=0
n=13 code=0 value=61
n=14 code=0 value=56
n=15 code=5 value=0
n=16 code=0 value=55
";

#[test]
fn stamps_roll_over() {
    let answers = String::from_utf8(replay(ROLL_OVER)).unwrap();
    assert_eq!(answers, ROLL_OVER_ANSWERS);
}

#[test]
fn each_call_refuses_the_lines_of_the_other() {
    let refused = b"n=1 code=4 value=0\nn=2 code=4 value=0\n";
    assert_eq!(run(REPLAY.two_lines), refused);
    assert_eq!(replay(RUN.two_lines), refused);
    let plain = b"ev=add chip=9635 addr=21\nev=wait dev=0 ticks=5\n";
    assert_eq!(totals(plain), [0; TOTALS_ROOM]);
}

#[test]
fn lines_are_counted() {
    assert_eq!(lines(b""), 0);
    assert_eq!(lines(b"\n"), 1);
    assert_eq!(lines(b"a"), 1);
    assert_eq!(lines(b"a\n"), 1);
    assert_eq!(lines(b"a\n\n"), 2);
    assert_eq!(lines(b"a\nb"), 2);
}

#[test]
fn the_last_line_feed_may_lack() {
    for call in CALLS {
        assert_eq!((call.whole)(call.two_lines), TWO_ANSWERS);
        assert_eq!((call.whole)(&[call.two_lines, b"\n"].concat()), TWO_ANSWERS);
    }
    assert_eq!(run(b"ev=start"), b"n=1 code=0 value=0\n");
    assert_eq!(replay(b"at=5 ev=start"), b"n=1 code=0 value=0\n");
}

#[test]
fn an_empty_log_has_no_answers() {
    for call in CALLS {
        assert_eq!((call.whole)(b""), b"");
        assert_eq!((call.into)(b"", &mut []), Ok(0));
        let mut answers = [7; ANSWER_ROOM];
        assert_eq!(call.bare(b"", &mut answers), 0);
        assert!(answers.iter().all(|&byte| byte == 7));
    }
}

#[test]
fn a_short_buffer_is_refused_and_stays() {
    for call in CALLS {
        let mut answers = [7; 2 * ANSWER_ROOM - 1];
        let needed = 2 * ANSWER_ROOM;
        let refused = Err(TooShort { needed });
        assert_eq!((call.into)(call.two_lines, &mut answers), refused);
        assert!(answers.iter().all(|&byte| byte == 7));
    }
}

/// What the wrapper's own test hides: the library refuses by itself.
#[test]
fn the_library_refuses_a_short_buffer_by_itself() {
    for call in CALLS {
        let mut answers = [7; 2 * ANSWER_ROOM - 1];
        assert_eq!(call.bare(call.two_lines, &mut answers), 0);
        assert!(answers.iter().all(|&byte| byte == 7));
    }
}

/// In a buffer of just the room asked for, and in a longer one.
#[test]
fn the_rest_of_a_buffer_stays() {
    for call in CALLS {
        for length in [2 * ANSWER_ROOM, 2 * ANSWER_ROOM + 1] {
            let mut answers = vec![7; length];
            let written = (call.into)(call.two_lines, &mut answers).unwrap();
            assert_eq!(&answers[..written], TWO_ANSWERS);
            assert!(answers[written..].iter().all(|&byte| byte == 7));

            let mut answers = vec![7; length];
            let written = call.bare(call.two_lines, &mut answers);
            assert_eq!(&answers[..written], TWO_ANSWERS);
            assert!(answers[written..].iter().all(|&byte| byte == 7));
        }
    }
}

/// A PCA9635 whose outputs 0 to 3 have the modes 00 to 11, with brightness 64
/// for output 2, 128 for output 3 and M 1 for the group; awake from tick 0 to
/// 778, asleep there for 1,000 ticks. Then a PCA9531 whose outputs 0 to 3 have
/// the modes 00 to 11, both blinks as they are after reset, for 300 steps.
const LAMPS: &[u8] = b"at=0 ev=add chip=9635 addr=21
at=0 ev=start
at=0 ev=put byte=42
at=0 ev=put byte=0
at=0 ev=put byte=1
at=0 ev=start
at=0 ev=put byte=42
at=0 ev=put byte=132
at=0 ev=put byte=64
at=0 ev=put byte=128
at=0 ev=start
at=0 ev=put byte=42
at=0 ev=put byte=18
at=0 ev=put byte=1
at=0 ev=start
at=0 ev=put byte=42
at=0 ev=put byte=20
at=0 ev=put byte=228
at=0 ev=stop
at=500 ev=wait dev=0 ticks=200
at=578 ev=start
at=578 ev=put byte=42
at=578 ev=put byte=0
at=578 ev=put byte=17
at=578 ev=stop
at=1178 ev=wait dev=0 ticks=400
at=1178 ev=add chip=9531 addr=0
at=1178 ev=start
at=1178 ev=put byte=192
at=1178 ev=put byte=5
at=1178 ev=put byte=228
at=1178 ev=stop
at=1178 ev=wait dev=1 ticks=300
at=1179 ev=wait dev=1 ticks=281474976710656
";

/// Output 2 is lit in the first 64 ticks of each 256: 3 times 64 and 10 of the
/// 778, and all the while asleep; output 3 in the first 128 of each 256, but
/// only below tick 512, so it sleeps unlit. A blink is lit in 128 steps of each
/// 256: 128 and 44 of the 300. The last line is refused, and its tick does not
/// pass.
#[test]
fn totals_of_each_mode() {
    let mut expected = [0; TOTALS_ROOM];
    expected[..8].copy_from_slice(&[0, 1778, 1778, 0, 1202, 576, 256, 1522]);
    for output in 4..16 {
        expected[2 * output + 1] = 1778;
    }
    expected[32..40].copy_from_slice(&[0, 300, 300, 0, 172, 128, 172, 128]);
    for output in 4..8 {
        expected[32 + 2 * output + 1] = 300;
    }
    assert_eq!(totals(LAMPS), expected);
    assert_eq!(totals(LAMPS.trim_ascii_end()), expected);
}

#[test]
fn an_empty_log_has_zeros() {
    assert_eq!(totals(b""), [0; TOTALS_ROOM]);
    let mut row = [7; TOTALS_ROOM];
    assert_eq!(totals_into(b"", &mut row), Ok(()));
    assert_eq!(row, [0; TOTALS_ROOM]);
}

#[test]
fn a_short_row_is_refused_and_stays() {
    for length in [0, 1, TOTALS_ROOM - 1] {
        let mut row = vec![7; length];
        assert_eq!(totals_into(LAMPS, &mut row), Err(RowTooShort));
        assert!(row.iter().all(|&number| number == 7));
        assert_eq!(bare_totals(LAMPS, &mut row), 8);
        assert!(row.iter().all(|&number| number == 7));
    }
}

/// In a row of just the room asked for, and in longer ones.
#[test]
fn the_rest_of_a_row_stays() {
    for length in [TOTALS_ROOM, TOTALS_ROOM + 1, TOTALS_ROOM + 4] {
        let mut row = vec![7; length];
        assert_eq!(totals_into(LAMPS, &mut row), Ok(()));
        assert_eq!(row[..TOTALS_ROOM], totals(LAMPS));
        assert!(row[TOTALS_ROOM..].iter().all(|&number| number == 7));

        let mut row = vec![7; length];
        assert_eq!(bare_totals(LAMPS, &mut row), 0);
        assert_eq!(row[..TOTALS_ROOM], totals(LAMPS));
        assert!(row[TOTALS_ROOM..].iter().all(|&number| number == 7));
    }
}
