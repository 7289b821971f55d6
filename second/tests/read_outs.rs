//! Tests of what is read from a state and from a line: the latch read-out with refusal 1, the first
//! lit column with refusals 3 and 10. `clock` tests how the latches are set.

use crate::model::first_lit::first_lit;
use crate::model::latches::{read_out, PAIRS};
use crate::model::object::{BL, NAMES};
use crate::model::refusal::Refusal;
use crate::model::state::State;

// "Eight bytes, bits 7 and 6: M0-P1 M0-P0; M1-P0 M1-P1; P0-PF P0-BL; P1-PF P1-BL; M0-PF M0-BL;
// M1-PF M1-BL; BL-PF and 0; P0-P1 M0-M1. Other bits 0."
#[test]
fn each_pair_has_its_bit_of_the_read_out() {
    let order = "M0-P1 M0-P0 M1-P0 M1-P1 P0-PF P0-BL P1-PF P1-BL \
                 M0-PF M0-BL M1-PF M1-BL BL-PF 0 P0-P1 M0-M1";
    for (latch, (first, second)) in PAIRS.into_iter().enumerate() {
        let pair = format!("{}-{}", NAMES[first], NAMES[second]);
        let place = order.split(' ').position(|each| each == pair).unwrap();
        let mut bytes = [0; 8];
        bytes[place / 2] = 0x80 >> (place % 2);
        let mut state = State::START;
        state.latches[latch] = true;
        assert_eq!(read_out(&state), Ok(bytes));
    }
    let mut state = State::START;
    assert_eq!(read_out(&state), Ok([0; 8]));
    state.latches = [true; 15];
    let all = [0xC0, 0xC0, 0xC0, 0xC0, 0xC0, 0xC0, 0x80, 0xC0];
    assert_eq!(read_out(&state), Ok(all));
    // Settled: the read-out of a bad state is refusal 1.
    state.h = 227;
    state.objects[BL].live = true;
    assert_eq!(read_out(&state), Err(Refusal::without_record(1)));
}

// "The smallest column whose byte has bits 6 and 7 clear and that object's bit set, or none."
#[test]
fn the_first_lit_column_is_the_smallest_with_the_objects_bit_alone() {
    for (object, column) in (0..6).flat_map(|n| [0, 1, 79, 158, 159].map(|x| (n, x))) {
        let mut bytes = [63 - (1 << object); 160];
        assert_eq!(first_lit(&bytes, object), Ok(None));
        bytes[column..].fill(63);
        assert_eq!(first_lit(&bytes, object), Ok(Some(column)));
        bytes[column..].fill(0);
        bytes[column] = 1 << object;
        assert_eq!(first_lit(&bytes, object), Ok(Some(column)));
    }
    for byte in 0..=255 {
        let lit = byte < 64 && byte & 0b0000_0100 != 0;
        assert_eq!(first_lit(&[byte; 160], 2), Ok(lit.then(|| 0)));
    }
}

// 3: "line buffer not 160 bytes"; 10: "no such ... object (over 5)".
#[test]
fn the_length_is_checked_before_the_object() {
    for object in 0..=255 {
        for length in [0, 1, 159, 160, 161, 320] {
            let expected = match (length, object) {
                (160, 0..=5) => Ok(Some(0)),
                (160, _) => Err(Refusal::without_record(10)),
                _ => Err(Refusal::without_record(3)),
            };
            assert_eq!(first_lit(&vec![63; length], object), expected);
        }
    }
}
