//! Tests of the programs that read a tape from standard input: the listing, and the line bytes.

use crate::cases::bench::PRINTED_TAPE;
use crate::cases::build_tapes::tape_of;
use crate::model::{line_bytes, listing};
use crate::tests::playing::longest_tape;

const HEADING: &str = "line P0 P1 M0 M1 BL PF\n";

/// The rows that the paper prints for its tape, and the last line.
const PRINTED_ROWS: &str = "0 - - - - - -
1 - - 3 - - -
2 - - 156 - - -
3 - - 156 - - -
";
const NO_LATCHES: &str = "cx 00 00 00 00 00 00 00 00\n";

/// Asserts the listing of a tape: the heading, then these texts.
fn assert_listed(tape: &[u8], texts: &[&str]) {
    let mut out = Vec::new();
    listing::write(&mut &tape[..], &mut out).unwrap();
    let expected = format!("{}{}", HEADING, texts.concat());
    assert_eq!(String::from_utf8(out), Ok(expected));
}

/// The bytes of a tape's lines.
fn line_bytes_of(tape: &[u8]) -> Vec<u8> {
    let mut out = Vec::new();
    line_bytes::write(&mut &tape[..], &mut out).unwrap();
    out
}

/// The four lines of the printed tape, by the paper: nothing; missile 0 at column 3; eight blank
/// columns and missile 0 at column 156; missile 0 at column 156. All colours are 0.
fn printed_bytes() -> Vec<u8> {
    let mut lines = [[0; 160]; 4];
    lines[1][3] = 0b0000_0100;
    lines[2][..8].fill(64);
    lines[2][156] = 0b0000_0100;
    lines[3][156] = 0b0000_0100;
    let with_colours = lines.map(|objects| [objects, [0; 160]].concat());
    with_colours.concat()
}

// "For `01 0006 ...` it prints exactly: ..." "The heading comes first, before a refusal too. ... On
// a refusal it prints `refused R line L record K` instead of the rest and stops, L being the line
// not run, from 0."
#[test]
fn bench_the_printed_tape_and_refusals_before_and_after_its_lines() {
    assert_listed(&PRINTED_TAPE, &[PRINTED_ROWS, NO_LATCHES]);
    assert_eq!(line_bytes_of(&PRINTED_TAPE), printed_bytes());
    let at_once: [(&[u8], &str); 3] = [
        (&[], "refused 8 line 0 record 0\n"),
        (&[2, 0, 0], "refused 8 line 0 record 0\n"),
        (&[1, 0], "refused 9 line 0 record 0\n"),
    ];
    for (tape, refused) in at_once {
        assert_listed(tape, &[refused]);
        assert_eq!(line_bytes_of(tape), []);
    }
    let after: [(&[u8], &str); 7] = [
        (&[0], "refused 9 line 4 record 0\n"),
        (&[0, 1, 9], "refused 4 line 4 record 0\n"),
        (&[0, 3, 9, 0x2A], "refused 9 line 4 record 0\n"),
        (&[0, 3, 228, 4, 0], "refused 5 line 4 record 0\n"),
        (&[0, 6, 5, 4, 0, 5, 4, 0], "refused 6 line 4 record 1\n"),
        (&[0, 6, 0, 14, 9, 1, 0, 0], "refused 7 line 4 record 1\n"),
        (&[0, 3, 0, 0, 0, 0, 0], "refused 7 line 4 record 0\n"),
    ];
    for (bad, refused) in after {
        let tape = [&PRINTED_TAPE[..], bad].concat();
        assert_listed(&tape, &[PRINTED_ROWS, refused]);
        assert_eq!(line_bytes_of(&tape), printed_bytes());
    }
}

// "Input over 65,536 bytes prints `tape too long` and no heading." Settled: exactly 65,536 bytes are
// an ordinary tape; single spaces, decimal without padding, `-` for none, no trailing space.
#[test]
fn bench_over_65536_bytes_are_too_long() {
    let longest = longest_tape();
    let rows: String = (0..618).map(|n| format!("{n} - - - - - -\n")).collect();
    assert_eq!(longest.len(), 65_536);
    assert_listed(&longest, &[&rows, NO_LATCHES]);
    assert_eq!(line_bytes_of(&longest), [0; 618 * 320]);
    assert_listed(&[0; 65_536], &["refused 8 line 0 record 0\n"]);
    for length in [65_537, 65_538, 140_000] {
        let mut tape = longest.clone();
        tape.resize(length, 0);
        for tape in [tape, vec![0; length]] {
            let mut out = Vec::new();
            listing::write(&mut &tape[..], &mut out).unwrap();
            assert_eq!(out, b"tape too long\n");
            assert_eq!(line_bytes_of(&tape), []);
        }
    }
}

// "The latch bytes are two upper-case hexadecimal digits each." "A version byte alone is a tape of
// no lines": it has those of the start state.
#[test]
fn bench_latch_bytes_in_upper_case() {
    assert_listed(&[1], &[NO_LATCHES]);
    let first = vec![
        0, 0x0D, 255, 1, 0x1F, 2, 2, 0x1D, 2, 29, 0x14, 0, 30, 0x12, 0,
    ];
    let text = "0 - - - - 3 0\n1 - - 3 - 3 0\ncx 00 00 00 00 C0 00 80 00\n";
    assert_listed(&tape_of(&[first, vec![]]), &[text]);
}
