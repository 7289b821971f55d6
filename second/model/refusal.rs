//! A refusal: the number the scope paper gives it and the index of the record at fault.

/// A refused answer; the record's index counts from 0 within its line.
#[derive(Clone, Copy, Debug, PartialEq, Eq)]
pub struct Refusal {
    pub number: u8,
    pub record: usize,
}

impl Refusal {
    /// The refusal with this number where no record is at fault: the index is 0.
    pub const fn without_record(number: u8) -> Refusal {
        Refusal { number, record: 0 }
    }
}
