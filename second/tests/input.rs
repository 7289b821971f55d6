//! Tests of reading an input: short reads, read errors and the most bytes that are read.

use crate::model::input::{bytes_of_input, tape_of_input};
use std::io::{self, Read};

/// An input that cannot be read.
struct Unreadable;

impl Read for Unreadable {
    fn read(&mut self, _: &mut [u8]) -> io::Result<usize> {
        Err(io::ErrorKind::Other.into())
    }
}

// Settled: "A read error is treated as the end of input"; "read at most 65,537".
#[test]
fn an_input_is_read_to_its_end_its_first_error_or_the_most_bytes() {
    let bytes = [1, 2, 3, 4, 5];
    for at in 0..=5 {
        let short_reads = || (&bytes[..at]).chain(&bytes[at..]);
        assert_eq!(bytes_of_input(&mut short_reads(), 9), bytes);
        assert_eq!(bytes_of_input(&mut short_reads(), 3), bytes[..3]);
        let mut failing = short_reads().chain(Unreadable);
        assert_eq!(bytes_of_input(&mut failing, 9), bytes);
    }
    assert_eq!(bytes_of_input(&mut Unreadable, 9), []);
    for length in [65_536, 65_537, 65_538, 200_000] {
        let tape = tape_of_input(&mut io::repeat(7).take(length));
        assert_eq!(tape.len() as u64, length.min(65_537));
    }
}
