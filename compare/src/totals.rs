//! The totals of all outputs at the end of a recorded log: as the row of
//! numbers that the library gives, and as text.

use crate::model::{Bus, MAX_OUTPUTS};
use lamptwin::TOTALS_ROOM;

/// At 32 times position plus 2 times output the lit total, behind it the unlit
/// one; 0 where there is no such output.
pub type Row = [u64; TOTALS_ROOM];

/// The row of a bus.
pub fn row(bus: &Bus) -> Row {
    let mut row = [0; TOTALS_ROOM];
    for (position, device) in bus.devices.iter().enumerate() {
        for (output, totals) in device.totals.iter().enumerate() {
            let place = 2 * (MAX_OUTPUTS * position + output);
            row[place] = totals.lit;
            row[place + 1] = totals.unlit;
        }
    }
    row
}

/// A line for each output that has waited, by position, then output.
pub fn lines(row: &Row) -> Vec<u8> {
    let mut text = String::new();
    for (index, totals) in row.chunks(2).enumerate() {
        let (position, output) = (index / MAX_OUTPUTS, index % MAX_OUTPUTS);
        if totals != [0, 0] {
            let [lit, unlit] = [totals[0], totals[1]];
            text += &format!("dev={position} out={output} lit={lit} unlit={unlit}\n");
        }
    }
    text.into_bytes()
}

#[cfg(test)]
mod tests {
    use super::*;
    use crate::model::Event;

    #[test]
    fn an_empty_bus_has_zeros() {
        assert_eq!(row(&Bus::new()), [0; TOTALS_ROOM]);
        assert_eq!(lines(&[0; TOTALS_ROOM]), b"");
    }

    #[test]
    fn an_output_has_its_place() {
        let mut bus = Bus::new();
        for pins in 0..8 {
            bus.apply(Event::Add {
                chip: 9551,
                address: pins,
            });
        }
        bus.devices[7].totals[6].lit = 5;
        bus.devices[7].totals[7].unlit = 6;
        bus.devices[1].totals[0].lit = 7;
        let row = row(&bus);
        assert_eq!([row[32], row[32 * 7 + 12], row[32 * 7 + 15]], [7, 5, 6]);
        assert_eq!(row.iter().sum::<u64>(), 18);
        let expected =
            "dev=1 out=0 lit=7 unlit=0\ndev=7 out=6 lit=5 unlit=0\ndev=7 out=7 lit=0 unlit=6\n";
        assert_eq!(lines(&row), expected.as_bytes());
    }
}
