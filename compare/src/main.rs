//! `compare model` answers a log, `compare generate` writes one, `compare
//! check` compares the twin with the model, `compare time` times both, `compare
//! lit` times their lit counts, and `compare wait` their waits and puts.
//! `compare replay` is `compare check` for recorded logs, whose lines bear
//! stamps, `compare store` compares the calls on a store of settings, and
//! `compare store-time` times them.

use compare::check::Twin;
use compare::sort::Sort;
use compare::store::calls::{Call, Left, CODES};
use compare::store::timing::Times;
use compare::store::{self, Lent};
use compare::timing::{LineTime, LineTimes};
use compare::{check, lit, text, timing, wait};
use std::env;
use std::io::{self, Read, Write};
use std::process::ExitCode;
use std::time::Duration;

const USAGE: &str = "usage: compare model [replay]
       compare generate [replay] SEED LINES DAMAGE_PERCENT
       compare check PROGRAM FIRST_SEED SEEDS LINES
       compare replay PROGRAM FIRST_SEED SEEDS LINES
       compare store FIRST_SEED SEEDS CALLS
       compare time LINES RUNS
       compare lit PROGRAM RUNS
       compare wait PROGRAM RUNS
       compare store-time RUNS";

fn main() -> ExitCode {
    let arguments: Vec<String> = env::args().skip(1).collect();
    let arguments: Vec<&str> = arguments.iter().map(String::as_str).collect();
    match run(&arguments) {
        Some(Ok(code)) => code,
        Some(Err(error)) => {
            eprintln!("compare: {error}");
            ExitCode::from(2)
        }
        None => {
            eprintln!("{USAGE}");
            ExitCode::from(2)
        }
    }
}

/// Nothing for wrong arguments.
fn run(arguments: &[&str]) -> Option<io::Result<ExitCode>> {
    Some(match *arguments {
        ["model"] => model(Sort::Plain),
        ["model", "replay"] => model(Sort::Stamped),
        ["generate", "replay", ref numbers @ ..] => write_log(Sort::Stamped, numbers_of(numbers)?),
        ["generate", ref numbers @ ..] => write_log(Sort::Plain, numbers_of(numbers)?),
        ["check", program, ref numbers @ ..] => {
            let sort = Sort::Plain;
            check_twin(Twin { sort, program }, numbers_of(numbers)?)
        }
        ["replay", program, ref numbers @ ..] => {
            let sort = Sort::Stamped;
            check_twin(Twin { sort, program }, numbers_of(numbers)?)
        }
        ["store", ref numbers @ ..] => check_store(numbers_of(numbers)?),
        ["time", ref numbers @ ..] => match numbers_of(numbers)? {
            [_, 0] => return None,
            [lines, runs] => time_both(lines as usize, runs as usize),
        },
        ["lit", program, ref numbers @ ..] => match numbers_of(numbers)? {
            [0] => return None,
            [runs] => time_counts(program, runs as usize),
        },
        ["wait", program, ref numbers @ ..] => match numbers_of(numbers)? {
            [0] => return None,
            [runs] => time_waits(program, runs as usize),
        },
        ["store-time", ref numbers @ ..] => match numbers_of(numbers)? {
            [0] => return None,
            [runs] => time_store(runs as usize),
        },
        _ => return None,
    })
}

/// So many numbers, no more and no fewer.
fn numbers_of<const N: usize>(arguments: &[&str]) -> Option<[u64; N]> {
    let numbers: Option<Vec<u64>> = arguments.iter().map(|word| word.parse().ok()).collect();
    numbers?.try_into().ok()
}

fn model(sort: Sort) -> io::Result<ExitCode> {
    let mut input = Vec::new();
    io::stdin().read_to_end(&mut input)?;
    io::stdout().write_all(&sort.model(&input))?;
    Ok(ExitCode::SUCCESS)
}

fn write_log(sort: Sort, [seed, lines, damage]: [u64; 3]) -> io::Result<ExitCode> {
    io::stdout().write_all(&sort.log(seed, lines as usize, damage))?;
    Ok(ExitCode::SUCCESS)
}

fn check_twin(twin: Twin, [first, seeds, lines]: [u64; 3]) -> io::Result<ExitCode> {
    let outcome = check::compare(twin, first, seeds, lines as usize)?;
    if let Some(mismatch) = &outcome.mismatch {
        print_mismatch(twin, mismatch);
    }
    println!("compared {} logs, {} lines", outcome.logs, outcome.lines);
    Ok(match outcome.mismatch {
        None => ExitCode::SUCCESS,
        Some(_) => ExitCode::FAILURE,
    })
}

fn print_mismatch(twin: Twin, mismatch: &check::Mismatch) {
    println!(
        "mismatch at seed {}, damage {} percent",
        mismatch.seed, mismatch.damage
    );
    let pair = mismatch.pair;
    print_difference(pair, &mismatch.log, &mismatch.expected, &mismatch.actual);
    let short = check::shorten_for(twin, mismatch);
    println!("shortest failing log found:");
    for line in text::lines(&short) {
        println!("{}", line.escape_ascii());
    }
    if let Ok((expected, actual)) = pair.answers(twin, &short) {
        print_difference(pair, &short, &expected, &actual);
    }
}

fn print_difference(pair: check::Pair, log: &[u8], expected: &[u8], actual: &[u8]) {
    let number = check::first_difference(expected, actual);
    let (one, other) = pair.names();
    if pair == check::Pair::Totals {
        println!("first difference of the totals at the end:");
    } else {
        println!("first difference at line {number}:");
        println!("  event:   {}", check::line_text(log, number));
    }
    println!("  {one}: {}", check::line_text(expected, number));
    println!("  {other}: {}", check::line_text(actual, number));
}

fn check_store([first, seeds, calls]: [u64; 3]) -> io::Result<ExitCode> {
    if lamptwin::store_size() != store::SIZE {
        return Err(io::Error::other("the library's store has another size"));
    }
    let outcome = store::check::compare(Call::by_library, first, seeds, calls);
    print_codes(&outcome);
    if let Some(mismatch) = &outcome.mismatch {
        print_store_mismatch(mismatch);
        return Ok(ExitCode::FAILURE);
    }
    let unmet = outcome.unmet();
    if seeds < store::check::ENOUGH_SEEDS || unmet.is_empty() {
        return Ok(ExitCode::SUCCESS);
    }
    for (name, code) in unmet {
        println!("no {name} was answered with code {code}");
    }
    Ok(ExitCode::FAILURE)
}

fn print_codes(outcome: &store::check::Outcome) {
    println!(
        "compared {} sequences, {} calls on a store",
        outcome.sequences, outcome.calls
    );
    for (name, codes) in CODES {
        let times = |code: &u64| format!("{code}: {}", outcome.times(name, *code));
        let times: Vec<String> = codes.iter().map(times).collect();
        println!("  {name:<6} by code {}", times.join(", "));
    }
}

fn print_store_mismatch(mismatch: &store::check::Mismatch) {
    println!(
        "mismatch at seed {}, call {}",
        mismatch.seed, mismatch.number
    );
    print_left(&mismatch.call, &mismatch.expected, &mismatch.actual);
    let (call, short) = store::check::shorten(Call::by_library, mismatch);
    println!(
        "shortest failing store found, of {} bytes, 0 but for:",
        short.len()
    );
    for place in store::check::places_in_use(&short) {
        println!("{place}");
    }
    let expected = call.by_model(&mut Lent::new(&short));
    let actual = call.by_library(&short);
    print_left(&call, &expected, &actual);
}

fn print_left(call: &Call, expected: &Left, actual: &Left) {
    println!("  call:    {call}");
    for (name, left) in [("model:  ", expected), ("library:", actual)] {
        println!("  {name} {}", store::check::answer_text(left.answer));
    }
    let parts = [
        ("store: ", &expected.store, &actual.store),
        ("buffer:", &expected.buffer, &actual.buffer),
    ];
    for (name, expected, actual) in parts {
        if let Some(text) = store::check::byte_difference(expected, actual) {
            println!("  {name}  {text}");
        }
    }
}

fn time_both(lines: usize, runs: usize) -> io::Result<ExitCode> {
    for (sort, name) in [(Sort::Plain, ""), (Sort::Stamped, ", replay")] {
        for seed in timing::SEEDS {
            let log = sort.log(seed, lines, 0);
            let times = timing::time(sort, &log, runs);
            println!(
                "seed {seed}{name}: model {:.0}, library {:.0} lines per second; the library takes {:.2} times as long",
                times.lines_per_second(times.model),
                times.lines_per_second(times.library),
                times.ratio(),
            );
        }
    }
    Ok(ExitCode::SUCCESS)
}

fn time_counts(program: &str, runs: usize) -> io::Result<ExitCode> {
    for window in lit::WINDOWS {
        println!(
            "{} lit counts of {window} ticks or steps each:",
            lit::COUNTS
        );
        println!("the time of all, the time of one, and over the model's");
        let mut total = [Duration::ZERO; 3];
        for (chip, mode) in lit::settings() {
            let times = timing::time_lines(program, &lit::log(chip, mode, window), runs)?;
            print_times(&format!("{chip} {:<13}", mode.to_string()), &times);
            let whole = [&times.model, &times.library, &times.program].map(|time| time.whole);
            for (sum, time) in total.iter_mut().zip(whole) {
                *sum += time;
            }
        }
        let [model, library, program] = total.map(|time| time.as_secs_f64() * 1e3);
        println!("all logs, whole: model {model:.1} ms, library {library:.1} ms, program {program:.1} ms");
    }
    Ok(ExitCode::SUCCESS)
}

fn time_waits(program: &str, runs: usize) -> io::Result<ExitCode> {
    println!("{} lines each, of one PCA9635 on the bus:", wait::LINES);
    println!("the time of all, the time of one, and over the model's");
    for boards in wait::BOARDS {
        for subject in wait::SUBJECTS {
            let times = timing::time_lines(program, &wait::log(subject, boards), runs)?;
            let label = format!("boards {boards}: {:<16}", subject.to_string());
            print_times(&label, &times);
        }
    }
    time_replays(runs);
    Ok(ExitCode::SUCCESS)
}

/// A line's time goes to every board, so what eight boards take more than one
/// is seven waits.
fn time_replays(runs: usize) {
    let [few, many] = wait::BOARDS;
    println!(
        "{} lines each of a replay, with {few} and {many} PCA9635:",
        wait::LINES
    );
    println!("the time of one line with each, the time of one board's wait, and over the model's");
    for setting in wait::SETTINGS {
        let logs = wait::BOARDS.map(|boards| wait::recording(setting, boards));
        let [one, all] = timing::time_replays(&logs, runs);
        let times = |one: &LineTime, all: &LineTime| {
            let [one, all] = [one, all].map(LineTime::nanoseconds_a_line);
            (one, all, (all - one) / (many - few) as f64)
        };
        let (one_model, all_model, model) = times(&one.model, &all.model);
        let (one_library, all_library, library) = times(&one.library, &all.library);
        println!(
            "{:<10} model {one_model:4.0} ns {all_model:4.0} ns wait {model:4.0} ns  library {one_library:4.0} ns {all_library:4.0} ns wait {library:4.0} ns {:.2}",
            setting.to_string(),
            library / model,
        );
    }
}

fn time_store(runs: usize) -> io::Result<ExitCode> {
    println!("calls on a store that holds 255 versions, or 256 for a refused save and a keep:");
    println!("the time of one, the model's on what it keeps, the library's on the bytes, and over the model's");
    for subject in store::timing::subjects() {
        let times = store::timing::time(subject, runs)?;
        let [model, library] = [times.model, times.library].map(Times::nanoseconds_a_call);
        println!(
            "{:<14} model {model:5.0} ns  library {library:5.0} ns {:.2}",
            subject.to_string(),
            times.ratio(),
        );
    }
    Ok(ExitCode::SUCCESS)
}

fn print_times(label: &str, times: &LineTimes) {
    let columns = |time: &LineTime| {
        let milliseconds = time.all().as_secs_f64() * 1e3;
        let nanoseconds = time.nanoseconds_a_line();
        format!("{milliseconds:.3} ms {nanoseconds:4.0} ns")
    };
    println!(
        "{label} model {}  library {} {:.2}  program {} {:.2}",
        columns(&times.model),
        columns(&times.library),
        times.library.ratio(&times.model),
        columns(&times.program),
        times.program.ratio(&times.model),
    );
}
