//! The two cards, raw: the classroom card of the counter's 63 values, and the card of request Three,
//! the table of 256 mirrored bytes.

use crate::model::counter::{value_of_count, Value, LAST_COUNT};
use crate::model::mirror::mirrored;
use std::io::{self, Write};

/// Writes both cards. Ends early with the first write error.
pub fn write(out: &mut dyn Write) -> io::Result<()> {
    out.write_all(&card_bytes())
}

/// The values of counts 0 to 62, a byte each, then the mirrored bytes of 0 to 255. No count up to 62 is
/// refused.
fn card_bytes() -> Vec<u8> {
    let values = (0..=LAST_COUNT).filter_map(|count| value_of_count(count).ok());
    let mirrors = (0..=255).map(mirrored);
    values.map(Value::to_byte).chain(mirrors).collect()
}
