//! Reading a tape: the version byte 1, then for each line a two-byte big-endian length and that
//! many bytes of writes.

use crate::model::refusal::Refusal;
use crate::model::write_list::is_list_length;

/// The version byte of a tape.
pub const VERSION: u8 = 1;

/// The place of a tape's first line: after the version byte.
pub const FIRST_PLACE: u64 = 1;

/// The number of bytes of a line's length.
const LENGTH_BYTES: usize = 2;

/// What reading at a place finds: a line, whose writes stand from start to end, the end being the
/// next place; or that the tape has ended.
#[derive(Clone, Copy, Debug, PartialEq, Eq)]
pub enum Reading {
    Line { start: usize, end: usize },
    Ended,
}

/// What stands at a place of a tape. Refuses (8) an empty tape or a version that is not 1, then
/// (9) a place that is 0 or past the end, (9) a lone length byte, (4) a length that no write list
/// has, (9) a line cut short.
pub fn read(tape: &[u8], place: u64) -> Result<Reading, Refusal> {
    if tape.first() != Some(&VERSION) {
        return Err(Refusal::without_record(8));
    }
    if place == 0 || place > tape.len() as u64 {
        return Err(Refusal::without_record(9));
    }
    let place = place as usize;
    match tape[place..] {
        [] => Ok(Reading::Ended),
        [_] => Err(Refusal::without_record(9)),
        [high, low, ..] => line_at(tape, place + LENGTH_BYTES, [high, low]),
    }
}

/// The line whose writes start here, its length being given in two bytes. Refuses (4) a length
/// that no write list has, then (9) one that goes past the end of the tape.
fn line_at(tape: &[u8], start: usize, length: [u8; LENGTH_BYTES]) -> Result<Reading, Refusal> {
    let length = usize::from(u16::from_be_bytes(length));
    if !is_list_length(length) {
        return Err(Refusal::without_record(4));
    }
    let end = start + length;
    if end > tape.len() {
        return Err(Refusal::without_record(9));
    }
    Ok(Reading::Line { start, end })
}

/// The stretch of the tape that reading at a place finds: the writes of the line there; empty
/// where reading says ended or refuses.
pub fn stretch(tape: &[u8], place: u64) -> &[u8] {
    match read(tape, place) {
        Ok(Reading::Line { start, end }) => &tape[start..end],
        Ok(Reading::Ended) | Err(_) => &[],
    }
}
