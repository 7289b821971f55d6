//! Reading an input: its bytes, at most so many; the tape that it is.

use std::io::Read;

/// The most bytes of a tape that is played.
pub const MOST_TAPE_BYTES: usize = 65_536;

/// The bytes of an input up to its end or its first read error, at most so many.
pub fn bytes_of_input(input: &mut dyn Read, most: usize) -> Vec<u8> {
    let mut bytes = Vec::new();
    let _ = input.take(most as u64).read_to_end(&mut bytes);
    bytes
}

/// The bytes of an input that is a tape, at most one more than a tape that is played has.
pub fn tape_of_input(input: &mut dyn Read) -> Vec<u8> {
    bytes_of_input(input, MOST_TAPE_BYTES + 1)
}
