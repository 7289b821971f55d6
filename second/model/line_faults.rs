//! The faults of a line call in the order of the checks, refusals 1 to 7 and 11: the first of
//! them is the call's refusal.

use crate::model::refusal::Refusal;
use crate::model::registers::register_at;
use crate::model::state::State;
use crate::model::write_list::{is_list_length, records, ListedWrite, CLOCKS};

/// The number of bytes of each of a line's two buffers: one a column.
pub const COLUMNS: usize = 160;

/// The lengths of the two buffers lent to a line: for object bytes and for colour bytes.
#[derive(Clone, Copy, Debug, PartialEq, Eq)]
pub struct Lengths {
    pub objects: usize,
    pub colours: usize,
}

/// All faults of a call with this state, write list and lengths of the buffers: those of the whole
/// call, then those of the records, one record after another.
pub fn line_faults(given: &State, list: &[u8], lengths: Lengths) -> Vec<Refusal> {
    let mut faults = call_faults(given, list, lengths);
    let mut before = None;
    for (index, record) in records(list).into_iter().enumerate() {
        for number in record_faults(record, before) {
            faults.push(Refusal {
                number,
                record: index,
            });
        }
        before = Some(record.clock);
    }
    faults
}

/// The faults of the whole call: (1) a bad state, (2) h not 0, (3) a line buffer not of 160 bytes,
/// (11) a colour buffer not of 160 bytes, (4) a list of a length that is no multiple of 3 or over
/// 684.
fn call_faults(given: &State, list: &[u8], lengths: Lengths) -> Vec<Refusal> {
    let mut faults = Vec::new();
    if let Err(refusal) = given.check() {
        faults.push(refusal);
    }
    if given.h != 0 {
        faults.push(Refusal::without_record(2));
    }
    if lengths.objects != COLUMNS {
        faults.push(Refusal::without_record(3));
    }
    if lengths.colours != COLUMNS {
        faults.push(Refusal::without_record(11));
    }
    if !is_list_length(list.len()) {
        faults.push(Refusal::without_record(4));
    }
    faults
}

/// The faults of a record after one with this clock: (5) a clock over 227, (6) a clock not above
/// the one before, (7) an unknown register.
fn record_faults(record: ListedWrite, before: Option<u8>) -> Vec<u8> {
    let mut faults = Vec::new();
    if usize::from(record.clock) >= CLOCKS {
        faults.push(5);
    }
    if before.map_or(false, |before| record.clock <= before) {
        faults.push(6);
    }
    if register_at(record.write.address).is_none() {
        faults.push(7);
    }
    faults
}
