//! Tests of the counter: "The six-bit counter" and refusal 10.

use crate::model::counter::{count_of_value, value_of_count, Kind};
use crate::model::refusal::Refusal;

/// The kinds with their period and wrap value.
const KINDS: [(Kind, u8, &str); 2] = [
    (Kind::Horizontal, 57, "010100"),
    (Kind::Position, 40, "101101"),
];

/// The byte of these bits.
fn byte_of(bits: &str) -> u8 {
    u8::from_str_radix(bits, 2).unwrap()
}

/// The bits of the value with this count.
fn bits_of_count(count: u8) -> String {
    value_of_count(count).unwrap().to_string()
}

/// One step without the wrap, as the paper words it.
pub fn plain_step(old: &str) -> String {
    let leftmost = if old[4..5] == old[5..] { "1" } else { "0" };
    format!("{}{}", leftmost, &old[..5])
}

// "Counts 4, 16, 39, 56, 62 are 111100, 011100, 101101, 010100, 000001." "From 000000 this passes
// 63 different values and returns; 111111 is not among them." "The leftmost bit is the highest."
#[test]
fn the_counts_are_the_plain_steps_from_000000_and_back() {
    let bench = [0, 4, 16, 39, 56, 62].map(bits_of_count);
    let expected = ["000000", "111100", "011100", "101101", "010100", "000001"];
    assert_eq!(bench, expected);
    let mut met = [0; 64];
    for count in 0..=62 {
        let bits = bits_of_count(count);
        met[usize::from(byte_of(&bits))] += 1;
        assert_eq!(count_of_value(byte_of(&bits)), Ok(count));
        assert_eq!(value_of_count(count).unwrap().to_byte(), byte_of(&bits));
        assert_eq!(plain_step(&bits), bits_of_count((count + 1) % 63));
    }
    assert_eq!((&met[..63], met[63]), (&[1; 63][..], 0));
}

// "With the wrap, the step from the wrap value gives 000000, and so does the step from 111111.
// Every other value steps as above." "Each with its own period": counts 0 to 56 and 0 to 39. "From
// any of the 64 values 000000 is met within 56 steps (horizontal) or 39 (position)".
#[test]
fn the_steps_of_each_kind_have_its_wrap_and_meet_000000_within_its_period() {
    for (kind, period, wrap) in KINDS {
        assert_eq!(bits_of_count(period - 1), wrap);
        let mut most_steps = 0;
        for from in 0..=63 {
            let old = format!("{from:06b}");
            let wraps = old == wrap || old == "111111";
            let expected = if wraps {
                "000000".to_string()
            } else {
                plain_step(&old)
            };
            assert_eq!(kind.step(from).unwrap().to_string(), expected);
            let mut value = from;
            let mut steps = 0;
            while value != 0 && steps < 64 {
                value = byte_of(&kind.step(value).unwrap().to_string());
                steps += 1;
            }
            most_steps = most_steps.max(steps);
        }
        assert_eq!(most_steps, period - 1);
    }
}

// Refusal 10: "no such count (over 62), value (over 63; in conversion also 111111)".
#[test]
fn refusals_over_all_bytes() {
    for byte in 0..=255 {
        let answers = [
            (KINDS[0].0.step(byte).err(), byte > 63),
            (KINDS[1].0.step(byte).err(), byte > 63),
            (value_of_count(byte).err(), byte > 62),
            (count_of_value(byte).err(), byte >= 63),
        ];
        for (refusal, expected) in answers {
            let ten = Some(Refusal::without_record(10));
            assert_eq!(refusal, ten.filter(|_| expected));
        }
    }
}
