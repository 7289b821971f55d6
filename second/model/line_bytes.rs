//! The bytes of a tape's lines: the object bytes and the colour bytes of each line that is run, raw.

use crate::model::input::{tape_of_input, MOST_TAPE_BYTES};
use crate::model::replay::replay;
use std::io::{self, Read, Write};

/// Writes the bytes of the lines of the tape that is the input. A read error counts as the end of
/// the input; ends early with the first write error.
pub fn write(input: &mut dyn Read, out: &mut dyn Write) -> io::Result<()> {
    out.write_all(&line_bytes(&tape_of_input(input)))
}

/// For each line run from the start state, one line after another, its 160 object bytes, then its
/// 160 colour bytes, up to the tape's end or to the first line refused; none for a tape of over
/// 65,536 bytes.
fn line_bytes(tape: &[u8]) -> Vec<u8> {
    if tape.len() > MOST_TAPE_BYTES {
        return Vec::new();
    }
    let lines = replay(tape).lines;
    let both = lines.iter().flat_map(|line| [line.objects, line.colours]);
    both.flatten().collect()
}
