//! The listing of a tape: a row for each line with the first lit column of each object, then the
//! latches.

use crate::model::first_lit::first_lit;
use crate::model::input::{tape_of_input, MOST_TAPE_BYTES};
use crate::model::latches::read_out;
use crate::model::line_faults::COLUMNS;
use crate::model::object::NAMES;
use crate::model::refusal::Refusal;
use crate::model::replay::replay;
use std::io::{self, Read, Write};

/// Writes the listing of the tape that is the input. A read error counts as the end of the input;
/// ends early with the first write error.
pub fn write(input: &mut dyn Read, out: &mut dyn Write) -> io::Result<()> {
    out.write_all(listing(&tape_of_input(input)).as_bytes())
}

/// The text of the listing: the heading, a row for each line run, and the latches or the refusal
/// of the line not run; for a tape of over 65,536 bytes only that it is too long.
pub fn listing(tape: &[u8]) -> String {
    if tape.len() > MOST_TAPE_BYTES {
        return "tape too long\n".to_string();
    }
    let replay = replay(tape);
    let mut text = format!("line {}\n", NAMES.join(" "));
    for (number, bytes) in replay.lines.iter().enumerate() {
        text += &row(number, &bytes.objects);
    }
    text += &match replay.end {
        Ok(state) => latches_text(read_out(&state).unwrap_or_default()),
        Err(refusal) => refusal_text(refusal, replay.lines.len()),
    };
    text
}

/// The row of the line with this number: the first lit column of each object, or `-`.
fn row(number: usize, bytes: &[u8; COLUMNS]) -> String {
    let mut text = number.to_string();
    for object in 0..NAMES.len() {
        text += &match first_lit(bytes, object as u8) {
            Ok(Some(column)) => format!(" {}", column),
            _ => " -".to_string(),
        };
    }
    text + "\n"
}

/// The line of the latches: eight bytes of two upper-case hexadecimal digits.
fn latches_text(bytes: [u8; 8]) -> String {
    let digits: String = bytes.iter().map(|byte| format!(" {:02X}", byte)).collect();
    format!("cx{}\n", digits)
}

/// The line of a refusal of the line with this number.
fn refusal_text(refusal: Refusal, line: usize) -> String {
    format!(
        "refused {} line {} record {}\n",
        refusal.number, line, refusal.record
    )
}
