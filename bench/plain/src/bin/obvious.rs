//! Replays the recording on standard input, the obvious way.

use std::io::{self, Read, Write};

fn main() -> io::Result<()> {
    let mut log = Vec::new();
    io::stdin().read_to_end(&mut log)?;
    io::stdout().write_all(&plain::obvious::run(&log).answers)
}
