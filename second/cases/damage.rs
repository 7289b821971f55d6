//! Damage done to tapes: each way changes a tape at one spot.

use crate::cases::build_tapes::line_places;
use crate::cases::random::Random;
use crate::cases::random_lists::unknown_addresses;
use crate::cases::spoil::{other_version, set_length, BAD_LENGTHS};
use crate::model::tape::stretch;

/// A way of damaging a tape that is not empty.
pub type Damage = fn(&Random, &mut Vec<u8>);

/// Every way, with its name. What is to be changed in a record stays on a tape without writes.
pub const DAMAGES: [(&str, Damage); 8] = [
    ("byte_flipped", |random, tape| {
        let index = random.index(tape.len());
        tape[index] ^= random.pick(&[1 << random.up_to(7), random.between(1, 255)]);
    }),
    ("cut", |random, tape| {
        tape.truncate(random.index(tape.len()));
    }),
    ("byte_inserted", |random, tape| {
        tape.insert(random.index(tape.len() + 1), random.byte());
    }),
    ("byte_removed", |random, tape| {
        tape.remove(random.index(tape.len()));
    }),
    ("length_changed", change_length),
    ("version_changed", |random, tape| {
        tape[0] = other_version(random);
    }),
    ("clock_changed", |random, tape| {
        change_record(random, tape, 0, &[random.byte(), 228, 255, 0]);
    }),
    ("register_changed", |random, tape| {
        change_record(random, tape, 1, &unknown_addresses());
    }),
];

/// Changes the length of a line; a tape without lines stays as it is.
fn change_length(random: &Random, tape: &mut Vec<u8>) {
    let places = line_places(tape);
    if !places.is_empty() {
        let place = random.pick(&places);
        let length = stretch(tape, place).len() as u16;
        let bad = random.pick(&BAD_LENGTHS);
        let changed = random.pick(&[length + 1, length + 3, length.wrapping_sub(3), bad]);
        set_length(tape, place, changed);
    }
}

/// Makes a byte of any record, 0 for its clock and 1 for its address, one of these.
fn change_record(random: &Random, tape: &mut [u8], byte: usize, changed: &[u8]) {
    let mut records = Vec::new();
    for place in line_places(tape) {
        let start = place as usize + 2;
        records.extend((start..start + stretch(tape, place).len()).step_by(3));
    }
    if !records.is_empty() {
        tape[random.pick(&records) + byte] = random.pick(changed);
    }
}
