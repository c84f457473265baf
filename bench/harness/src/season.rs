//! A season of logs through the programs: how long it takes as a whole.

use crate::programs::{run, same_outputs, Programs};
use crate::{generate, plan, table, Result, WHO};
use std::fs::{self, File};
use std::io::Read;
use std::path::{Path, PathBuf};
use std::process::{Command, Stdio};
use std::sync::atomic::{AtomicUsize, Ordering};
use std::thread;
use std::time::Instant;

const LOGS: usize = 150;
/// Seeds that no other race has.
const FIRST_SEED: u64 = 1_000;

/// Compares on every log, then times the whole; prints the table.
pub fn race(programs: Programs, folder: &Path, lines: usize) -> Result<()> {
    let answers = folder.join("answers");
    let mut logs = Vec::new();
    for (plan, seed) in plan::season(LOGS).iter().zip(FIRST_SEED..) {
        let log = folder.join(format!("{seed}.log"));
        fs::write(&log, generate::log(plan, lines, seed))?;
        same_outputs(programs, &format!("seed {seed}"), &log, &answers)?;
        logs.push(log);
    }
    println!("| {LOGS} logs | one after the other, s | two at a time, s | peak memory, KB |");
    println!("|---|---|---|---|");
    let mut times = [[0.0; 4]; 2];
    for (who, program) in programs.iter().enumerate() {
        for (workers, times) in (1..).zip(&mut times) {
            times[who] = seconds(program, folder, &logs, workers);
        }
        let [one, two] = times.map(|times| times[who]);
        let memory = peak_memory(program, &logs[0])?;
        println!("| {} | {one:.2} | {two:.2} | {memory} |", WHO[who]);
    }
    let names = ["one after the other", "two at a time"];
    table::print_worst(&names.into_iter().zip(times).collect::<Vec<_>>());
    Ok(())
}

/// Wall time of all logs, so many at a time.
fn seconds(program: &str, folder: &Path, logs: &[PathBuf], workers: usize) -> f64 {
    let next = AtomicUsize::new(0);
    let work = |worker: usize| {
        let answers = folder.join(format!("answers-{worker}"));
        while let Some(log) = logs.get(next.fetch_add(1, Ordering::Relaxed)) {
            run(program, log, &answers).expect("it ran when it was compared");
        }
    };
    let start = Instant::now();
    thread::scope(|scope| {
        for worker in 0..workers {
            let work = &work;
            scope.spawn(move || work(worker));
        }
    });
    start.elapsed().as_secs_f64()
}

/// The program's own peak in KB, as seen whenever a piece of its answers has
/// come. What it needs for the last few, which a pipe holds, is not seen.
fn peak_memory(program: &str, log: &Path) -> Result<String> {
    let mut child = Command::new(program)
        .stdin(File::open(log)?)
        .stdout(Stdio::piped())
        .spawn()?;
    let mut output = child.stdout.take().expect("it is piped");
    let mut peak = "-".to_string();
    while output.read(&mut [0; 1 << 16])? > 0 {
        let status = fs::read_to_string(format!("/proc/{}/status", child.id()))?;
        let line = status.lines().find_map(|line| line.strip_prefix("VmHWM:"));
        if let Some(kilobytes) = line.and_then(|line| line.split_whitespace().next()) {
            peak = kilobytes.to_string();
        }
    }
    child.wait()?;
    Ok(peak)
}
