//! Replays the recording on standard input, the fastest way.

fn main() -> std::io::Result<()> {
    plain::best::program::<true>()
}
