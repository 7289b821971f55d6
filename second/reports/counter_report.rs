//! The text of the counter report: for every byte the step of each kind, the value of that
//! count and the count of that value.

use crate::model::counter::{count_of_value, value_of_count, Kind};
use crate::reports::texts::answer_text;
use std::io::{self, Write};

/// Writes the heading and the 256 rows. Ends early with the first write error.
pub fn write(out: &mut dyn Write) -> io::Result<()> {
    writeln!(out, "input horizontal position value count")?;
    for byte in 0..=255 {
        let [horizontal, position] =
            [Kind::Horizontal, Kind::Position].map(|kind| answer_text(kind.step(byte)));
        let value = answer_text(value_of_count(byte));
        let count = answer_text(count_of_value(byte));
        writeln!(out, "{byte} {horizontal} {position} {value} {count}")?;
    }
    Ok(())
}

#[cfg(test)]
mod tests {
    use super::*;

    #[test]
    fn a_heading_and_256_rows_among_them_some_reckoned_by_hand() {
        let mut out = Vec::new();
        write(&mut out).unwrap();
        let text = String::from_utf8(out).unwrap();
        let lines: Vec<&str> = text.split('\n').collect();
        assert_eq!(lines.len(), 258);
        let rows = [
            (0, "input horizontal position value count"),
            (1, "0 100000 100000 000000 0"),
            (2, "1 000000 000000 100000 62"),
            (5, "4 100010 100010 111100 45"),
            (21, "20 000000 101010 110101 56"),
            (46, "45 010110 000000 000100 39"),
            (63, "62 011111 011111 000001 5"),
            (64, "63 000000 000000 refused(10,0) refused(10,0)"),
        ];
        for (n, row) in rows {
            assert_eq!(lines[n], row);
        }
        for n in 64..256 {
            let refused = " refused(10,0)".repeat(4);
            assert_eq!(lines[1 + n], format!("{n}{refused}"));
        }
    }
}
