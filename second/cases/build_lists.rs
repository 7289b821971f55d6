//! Write lists put together: records from clocks, addresses and values, bytes from records, and
//! the addresses of registers.

use crate::model::registers::{Register, KNOWN};
use crate::model::write_list::ListedWrite;

/// The records with these clocks, addresses and values.
pub fn records_of(writes: &[(u8, u8, u8)]) -> Vec<ListedWrite> {
    let writes = writes.iter();
    writes.map(|w| ListedWrite::new(w.0, w.1, w.2)).collect()
}

/// The list of these records.
pub fn list_of(records: &[ListedWrite]) -> Vec<u8> {
    let bytes = |record: &ListedWrite| [record.clock, record.write.address, record.write.value];
    records.iter().flat_map(bytes).collect()
}

/// The address of a known register; 0, which is unknown, for a number that no register has.
pub fn address_of(register: Register) -> u8 {
    let known = KNOWN.iter().find(|known| known.2 == register);
    known.map_or(0, |known| known.0)
}

/// The playfield register that lights a column, 0 to 159, unless reflected.
pub fn playfield_register(column: u8) -> Register {
    match column / 4 % 20 {
        0..=3 => Register::Pf0,
        4..=11 => Register::Pf1,
        _ => Register::Pf2,
    }
}

#[cfg(test)]
mod tests {
    use super::*;
    use crate::model::registers::register_at;
    use crate::model::write_list::records;

    #[test]
    fn records_are_read_back_from_their_list_and_registers_from_their_addresses() {
        let listed = records_of(&[(9, 0x2A, 0), (227, 0x1B, 255)]);
        assert_eq!(list_of(&listed), [9, 0x2A, 0, 227, 0x1B, 255]);
        assert_eq!(records(&list_of(&listed)), listed);
        for (_, _, register) in KNOWN {
            assert_eq!(register_at(address_of(register)), Some(register));
        }
        assert_eq!(register_at(address_of(Register::Strobe(5))), None);
    }
}
