//! Whether the twin and the plain replays give the same.

use crate::{Result, WHO};
use plain::REPLAYS;

/// How many lines are accepted, or where the four differ.
pub fn agree(name: &str, log: &[u8]) -> Result<usize> {
    let [obvious, prompt, best] = REPLAYS.map(|(_, run)| run(log));
    let answers = [
        lamptwin::replay(log),
        obvious.answers,
        prompt.answers,
        best.answers,
    ];
    same_answers(name, &answers)?;
    let totals = [
        lamptwin::totals(log),
        obvious.totals,
        prompt.totals,
        best.totals,
    ];
    for place in 0..256 {
        let numbers = totals.map(|row| row[place]);
        if numbers.iter().any(|&number| number != numbers[0]) {
            return Err(format!("{name}: total {place} of {WHO:?}: {numbers:?}").into());
        }
    }
    let is_accepted = |line: &&[u8]| line.windows(8).any(|part| part == b" code=0 ");
    let lines = answers[0].split(|&byte| byte == b'\n');
    Ok(lines.filter(is_accepted).count())
}

/// Names the first line at which answers differ, if there is one.
pub fn same_answers(name: &str, answers: &[Vec<u8>; 4]) -> Result<()> {
    if answers.iter().all(|other| *other == answers[0]) {
        return Ok(());
    }
    let mut lines = answers
        .each_ref()
        .map(|answers| answers.split(|&byte| byte == b'\n'));
    let mut number = 0;
    loop {
        number += 1;
        let line = lines.each_mut().map(|lines| lines.next());
        if line.iter().any(|other| *other != line[0]) {
            let text = line.map(|line| String::from_utf8_lossy(line.unwrap_or(b"")));
            return Err(format!("{name}: line {number} of {WHO:?}: {text:?}").into());
        }
    }
}
