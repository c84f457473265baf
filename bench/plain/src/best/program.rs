//! A replay of standard input, a piece at a time.

use super::Replay;
use std::fs::File;
use std::io::{self, Read, Write};
use std::os::fd::AsFd;

/// What is read at once.
const PIECE: usize = 1 << 16;

/// No line of a listed shape is longer, its line feed included.
const MAX_LINE: usize = 83;

/// Replays standard input to standard output.
pub fn program<const DEFER: bool>() -> io::Result<()> {
    // As files, which have no buffer of their own.
    let mut input = File::from(io::stdin().as_fd().try_clone_to_owned()?);
    let mut output = File::from(io::stdout().as_fd().try_clone_to_owned()?);
    let mut replay = Replay::<DEFER>::with_room(2 * PIECE);
    let mut buffer = vec![0; PIECE + MAX_LINE];
    let mut held = 0;
    loop {
        let read = input.read(&mut buffer[held..])?;
        let end = held + read;
        let whole = match read {
            0 => end,
            _ => end_of_last_line(&buffer[..end]),
        };
        replay.feed(&buffer[..whole]);
        output.write_all(replay.answers())?;
        replay.clear_answers();
        if read == 0 {
            return Ok(());
        }
        buffer.copy_within(whole..end, 0);
        // A line that is longer than any of a listed shape stays so.
        held = (end - whole).min(MAX_LINE);
    }
}

fn end_of_last_line(bytes: &[u8]) -> usize {
    let last = bytes.iter().rposition(|&byte| byte == b'\n');
    last.map_or(0, |last| last + 1)
}
