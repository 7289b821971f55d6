//! Request Three: a byte mirrored, as the table of 256 has it. Step 8 in `lit` does not look it up: it
//! goes by document 01's rule, from bit 7 down or from bit 0 up, and so a program that looks it up is
//! held to that rule.

use crate::model::lit::is_set;

/// The entry of the table at an index: bit n of it is bit 7 - n of the index. Never refuses.
pub fn mirrored(index: u8) -> u8 {
    let mut entry = 0;
    for n in 0..8 {
        entry |= u8::from(is_set(index, 7 - n)) << n;
    }
    entry
}
