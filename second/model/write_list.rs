//! The write list of a line: its three-byte records of clock, address and value.

use crate::model::clock::RegisterWrite;

/// The number of clocks of a line.
pub const CLOCKS: usize = 228;

/// The most bytes of a list: a record for each clock.
pub const MOST_BYTES: usize = 684;

/// Whether a list may have this length: a multiple of 3, at most 684 bytes.
pub fn is_list_length(length: usize) -> bool {
    length % 3 == 0 && length <= MOST_BYTES
}

/// A record: a write and its clock.
#[derive(Clone, Copy, Debug, PartialEq, Eq)]
pub struct ListedWrite {
    pub clock: u8,
    pub write: RegisterWrite,
}

impl ListedWrite {
    /// The write of a value to an address at a clock.
    pub fn new(clock: u8, address: u8, value: u8) -> ListedWrite {
        ListedWrite {
            clock,
            write: RegisterWrite { address, value },
        }
    }
}

/// The whole records of a list.
pub fn records(list: &[u8]) -> Vec<ListedWrite> {
    list.chunks_exact(3)
        .map(|bytes| ListedWrite::new(bytes[0], bytes[1], bytes[2]))
        .collect()
}

/// The write of each clock of a list without faults.
pub fn writes_by_clock(list: &[u8]) -> [Option<RegisterWrite>; CLOCKS] {
    let mut writes = [None; CLOCKS];
    for record in records(list) {
        writes[usize::from(record.clock)] = Some(record.write);
    }
    writes
}
