//! What a line of a log can say.

/// The numbers are as they stand in the line, in range or not.
#[derive(Clone, Copy, Debug, PartialEq, Eq)]
pub enum Event {
    Add { chip: u64, address: u64 },
    Start,
    Stop,
    Put { byte: u64 },
    Get { ack: u64 },
    Wait { board: u64, ticks: u64 },
    Oe { board: u64, level: u64 },
    Ext { board: u64, level: u64 },
    Reset { board: u64 },
    Lit { board: u64, output: u64, ticks: u64 },
    Pin { board: u64, output: u64 },
}
