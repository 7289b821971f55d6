//! Tests of reading a tape: "A line and a tape"; "On a tape: 8, then 9 for the place or a lone
//! length byte, then 4, then 9".

use crate::cases::bench::PRINTED_TAPE;
use crate::model::refusal::Refusal;
use crate::model::tape::{read, stretch, Reading};

/// The refusal with this number.
fn refused(number: u8) -> Result<Reading, Refusal> {
    Err(Refusal::without_record(number))
}

/// A line from start to end.
fn line(start: usize, end: usize) -> Result<Reading, Refusal> {
    Ok(Reading::Line { start, end })
}

/// Asserts what reading finds at a place, and that the stretch is that of the line, else empty.
fn assert_read(tape: &[u8], place: u64, reading: Result<Reading, Refusal>) {
    assert_eq!(read(tape, place), reading, "place {place}");
    let expected = match reading {
        Ok(Reading::Line { start, end }) => &tape[start..end],
        _ => &[],
    };
    assert_eq!(stretch(tape, place), expected);
}

// "Reading at a given place hands back that stretch of the tape itself and the next place, or says
// the tape has ended." The first tape is the one that the paper prints. Settled: any place is read
// as if a line began there; clocks and registers are not looked at.
#[test]
fn any_place_is_read_as_if_a_line_began_there() {
    // The value 0 of a record and the clock 3 of the next are a length of 3.
    let tape = [1, 0, 9, 255, 0x00, 0, 3, 0x0F, 0x1B, 9, 0x0D, 0];
    for (tape, place, reading) in [
        (&PRINTED_TAPE[..], 1, line(3, 9)),
        (&PRINTED_TAPE, 9, line(11, 11)),
        (&PRINTED_TAPE, 11, line(13, 19)),
        (&PRINTED_TAPE, 19, line(21, 21)),
        (&PRINTED_TAPE, 21, Ok(Reading::Ended)),
        (&tape, 1, line(3, 12)),
        (&tape, 2, refused(4)),
        (&tape, 5, line(7, 10)),
        (&tape, 11, refused(9)),
        (&tape, 12, Ok(Reading::Ended)),
    ] {
        assert_read(tape, place, reading);
    }
}

// 8: "tape empty or version not 1", before 9: "or the place is 0 or past its end", however far.
#[test]
fn the_version_is_checked_before_the_place() {
    let far = [8, 16, 31, 32, 63].map(|bits| 1 << bits);
    let past = far.iter().flat_map(|far| [far - 1, *far, far + 1]);
    let last = [u64::MAX - 21, u64::MAX - 2, u64::MAX - 1, u64::MAX];
    for place in [0, 22, 23, 24].into_iter().chain(past).chain(last) {
        assert_read(&PRINTED_TAPE, place, refused(9));
        assert_read(&[], place, refused(8));
    }
    for version in (0..=255).filter(|&version| version != 1) {
        let mut tape = PRINTED_TAPE;
        tape[0] = version;
        for place in [0, 1, 2, 21, 22, u64::MAX] {
            assert_read(&tape, place, refused(8));
            assert_read(&[version], place, refused(8));
        }
    }
}

// "A version byte alone is a tape of no lines"; a lone length byte is 9 whatever it is.
#[test]
fn the_end_of_the_tape_and_a_lone_length_byte() {
    assert_read(&[1], 1, Ok(Reading::Ended));
    for byte in 0..=255 {
        assert_read(&[1, byte], 1, refused(9));
        assert_read(&[1, byte], 2, Ok(Reading::Ended));
    }
}

// 4: "write list not a multiple of 3, or over 684 bytes", before 9: "tape cut short".
#[test]
fn lengths_are_checked_before_a_cut() {
    for length in 0..=65_535_u16 {
        let all = usize::from(length);
        for there in [0, all / 2, all.saturating_sub(1), all] {
            let mut tape = [&[1][..], &length.to_be_bytes()].concat();
            tape.resize(3 + there.min(700), 0x2A);
            let expected = match length {
                length if length % 3 != 0 || length > 684 => refused(4),
                _ if there < all => refused(9),
                _ => line(3, 3 + all),
            };
            assert_read(&tape, 1, expected);
        }
    }
}
