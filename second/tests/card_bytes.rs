//! Tests of the program that writes the two cards. The papers have no such program; the sentences are
//! those of what its bytes hold.

use crate::model::card_bytes;
use crate::model::mirror::mirrored;
use crate::tests::counter::plain_step;

/// What is written.
fn written() -> Vec<u8> {
    let mut out = Vec::new();
    card_bytes::write(&mut out).unwrap();
    out
}

// "The classroom card prints the 63 values as a table of constants"; "a table of 256 mirrored bytes".
#[test]
fn the_cards_have_63_and_256_bytes() {
    assert_eq!(written().len(), 63 + 256);
}

// The card "agrees with the rule at every count". "Counts 4, 16, 39, 56, 62 are 111100, 011100, 101101,
// 010100, 000001." "The leftmost bit is the highest."
#[test]
fn the_first_card_holds_the_values_of_counts_0_to_62() {
    let values: Vec<String> = written()[..63].iter().map(|n| format!("{n:06b}")).collect();
    let bench = [0, 4, 16, 39, 56, 62].map(|count| &values[count][..]);
    let expected = ["000000", "111100", "011100", "101101", "010100", "000001"];
    assert_eq!(bench, expected);
    for count in 0..63 {
        assert_eq!(plain_step(&values[count]), values[(count + 1) % 63]);
    }
}

// "Bit n of each entry is bit 7 - n of its index."
#[test]
fn the_second_card_holds_the_mirrored_bytes_of_0_to_255() {
    let written = written();
    let first = [0x00, 0x80, 0x40, 0xC0, 0x20, 0xA0, 0x60, 0xE0, 0x10];
    assert_eq!(written[63..72], first);
    assert_eq!(written[315..], [0x3F, 0xBF, 0x7F, 0xFF]);
    let mirrors: Vec<u8> = (0..=255).map(mirrored).collect();
    assert_eq!(written[63..], mirrors);
}

// Settled: write errors are ignored; the output ends with the first.
#[test]
fn a_write_error_ends_the_output() {
    let mut room = [9; 100];
    assert!(card_bytes::write(&mut &mut room[..]).is_err());
    assert_eq!(room[..], written()[..100]);
}
