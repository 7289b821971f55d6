//! The long test tapes: of empty lines, and of about 65,536 bytes, the most that is listed.

use crate::cases::build_tapes::{add_line, tape_of};
use crate::cases::random::Random;
use crate::cases::random_lists::showing_lists;
use crate::model::write_list::MOST_BYTES;
use crate::tapes::test_tapes::Tapes;

/// A line of one write: ENABL set at clock 9.
const ONE_WRITE: [u8; 3] = [9, 0x1F, 2];

/// The tapes of about 65,536 bytes: the name, the first bytes, whether most lines have writes, and
/// the bytes after the good lines. Good ones; a bad version; a lone length byte; a cut last line; a
/// bad length in the first line and in the last; an unknown register in the last.
const TAPES: [(&str, &[u8], bool, &[u8]); 8] = [
    ("empty_lines", &[1], false, &[]),
    ("with_writes", &[1], true, &[]),
    ("version_0", &[0], false, &[]),
    ("lone_length_byte", &[1], false, &[0]),
    ("cut_last_line", &[1], true, &[0, 6, 9, 0x2A]),
    ("bad_length_first_line", &[1, 0, 1], true, &[]),
    ("bad_length_last_line", &[1], true, &[0, 1, 9]),
    ("unknown_register_last_line", &[1], true, &[0, 3, 9, 0, 0]),
];

/// The tapes of empty lines, then those of about 65,536 bytes, then longer ones.
pub fn tapes(random: &Random) -> Tapes {
    let mut tapes = Tapes::new();
    for lines in [1, 2, 10, 11, 100, 101, 1000] {
        let tape = tape_of(&vec![vec![]; lines]);
        tapes.push((format!("empty_lines_{}", lines), tape));
    }
    for length in [65_535, 65_536, 65_537] {
        for (name, start, writes, end) in TAPES {
            let mut tape = good_tape(random, writes, length - end.len());
            tape[..start.len()].copy_from_slice(start);
            tape.extend(end);
            tapes.push((format!("{}_bytes_{}", length, name), tape));
        }
    }
    for length in [65_538, 70_000, 131_073] {
        let tape = good_tape(random, false, length);
        tapes.push((format!("{}_bytes_empty_lines", length), tape));
    }
    tapes.push(("65538_bytes_of_255".into(), vec![255; 65_538]));
    tapes
}

/// A good tape of exactly so many bytes: lines most of which have writes, if asked for; then one of
/// one write if the bytes left are odd in number; then empty lines.
fn good_tape(random: &Random, writes: bool, length: usize) -> Vec<u8> {
    let mut tape = tape_of(&[]);
    let mut full = !writes;
    while !full {
        for list in showing_lists(random) {
            full = tape.len() + 2 + MOST_BYTES + 5 > length;
            if !full {
                add_line(&mut tape, &list);
            }
        }
    }
    if (length - tape.len()) % 2 == 1 {
        add_line(&mut tape, &ONE_WRITE);
    }
    while tape.len() < length {
        add_line(&mut tape, &[]);
    }
    tape
}
