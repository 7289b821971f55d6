//! The first lit column of an object in a line's bytes.

use crate::model::line_faults::COLUMNS;
use crate::model::object::NAMES;
use crate::model::refusal::Refusal;

/// The smallest column whose byte has bits 6 and 7 clear and this object's bit set, or none.
/// Refuses (3) a number of bytes that is not 160, then (10) an object over 5.
pub fn first_lit(bytes: &[u8], object: u8) -> Result<Option<usize>, Refusal> {
    if bytes.len() != COLUMNS {
        return Err(Refusal::without_record(3));
    }
    if usize::from(object) >= NAMES.len() {
        return Err(Refusal::without_record(10));
    }
    Ok(bytes.iter().position(|&byte| shows(byte, object)))
}

/// Whether a column's byte shows an object, 0 to 5.
pub fn shows(byte: u8, object: u8) -> bool {
    byte & 0b1100_0000 == 0 && byte >> object & 1 == 1
}
