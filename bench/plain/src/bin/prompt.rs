//! Replays the recording on standard input, with prompt totals.

fn main() -> std::io::Result<()> {
    plain::prompt::program()
}
