//! The test tapes that the listing refuses, with 4 to 9, and those next to them that it does not.

use crate::cases::build_lists::list_of;
use crate::cases::build_tapes::{add_line, tape_of};
use crate::cases::random::Random;
use crate::cases::random_lists::{list_of_length, little_list, opening_list};
use crate::cases::spoil::{least_index, spoil_record, spoil_two_records};
use crate::model::tape::VERSION;
use crate::tapes::test_tapes::Tapes;

/// The number of lines beside the bad one.
const OTHERS: usize = 6;

/// The lines that are bad: their names and their numbers among the others.
const LINES: [(&str, usize); 3] = [("first", 0), ("middle", 3), ("last", OTHERS)];

/// The numbers of good lines before an end that makes a tape refused.
const LINES_BEFORE: [usize; 3] = [0, 1, 12];

/// The number of writes of a line with a bad record.
const WRITES: u8 = 8;

/// The tapes, group by group.
pub fn tapes(random: &Random) -> Tapes {
    let mut tapes = Tapes::new();
    bad_lengths(random, &mut tapes);
    longest_lines(random, &mut tapes);
    bad_records(random, &mut tapes);
    two_bad_records(random, &mut tapes);
    cut_tapes(random, &mut tapes);
    versions(random, &mut tapes);
    tapes
}

/// So many good lines: the first makes objects show, the others are little.
fn good_lists(random: &Random, number: usize) -> Vec<Vec<u8>> {
    let mut lists: Vec<Vec<u8>> = (0..number).map(|_| little_list(random)).collect();
    if let Some(first) = lists.first_mut() {
        *first = list_of(&opening_list(random));
    }
    lists
}

/// A tape of good lines with a bad list put among them as the line with this number.
fn tape_with(random: &Random, line: usize, bad: Vec<u8>) -> Vec<u8> {
    let mut lists = good_lists(random, OTHERS);
    lists.insert(line, bad);
    tape_of(&lists)
}

/// A list of so many writes whose records get these faults: the record's index and the number.
fn spoiled(random: &Random, writes: u8, faults: &[(usize, u8)]) -> Vec<u8> {
    let mut list = list_of_length(random, writes);
    for &(record, fault) in faults {
        spoil_record(random, &mut list, record, fault);
    }
    list_of(&list)
}

/// Refusal 4: lengths that are no multiple of 3, and over 684, with all of their bytes there; and
/// some that go past the end of the tape as well.
fn bad_lengths(random: &Random, tapes: &mut Tapes) {
    for (name, line) in LINES {
        for length in [1, 2, 4, 686, 687] {
            let name = format!("refused_4_{name}_line_of_{length}_bytes");
            tapes.push((name, tape_with(random, line, vec![0x0E; length])));
        }
    }
    for lines in LINES_BEFORE {
        for length in [2, 5, 687, 65_535_u16] {
            let mut tape = tape_of(&good_lists(random, lines));
            tape.extend(length.to_be_bytes());
            tape.push(0x0E);
            let name = format!("refused_4_also_cut_length_{length}_after_{lines}_lines");
            tapes.push((name, tape));
        }
    }
}

/// Lines of 684 bytes, which are good.
fn longest_lines(random: &Random, tapes: &mut Tapes) {
    for lines in [1, 3] {
        let longest = |_| list_of(&list_of_length(random, 228));
        let lists: Vec<Vec<u8>> = (0..lines).map(longest).collect();
        tapes.push((format!("lines_of_684_bytes_{lines}"), tape_of(&lists)));
    }
}

/// Refusals 5 to 7: the first record that can have the fault, and the last, also of 228.
fn bad_records(random: &Random, tapes: &mut Tapes) {
    for fault in 5..=7 {
        for (name, line) in LINES {
            for record in [least_index(fault), usize::from(WRITES) - 1] {
                let name = format!("refused_{fault}_{name}_line_record_{record}");
                let bad = spoiled(random, WRITES, &[(record, fault)]);
                tapes.push((name, tape_with(random, line, bad)));
            }
        }
    }
    for fault in 5..=7 {
        let bad = spoiled(random, 228, &[(227, fault)]);
        let name = format!("refused_{fault}_record_227");
        tapes.push((name, tape_with(random, 2, bad)));
    }
}

/// Two bad records, the first of which decides; and two faults in one record.
fn two_bad_records(random: &Random, tapes: &mut Tapes) {
    for first in 5..=7 {
        for second in 5..=7 {
            let mut list = list_of_length(random, WRITES);
            spoil_two_records(random, &mut list, first, second);
            let name = format!("refused_{first}_then_{second}_in_a_later_record");
            tapes.push((name, tape_with(random, 1, list_of(&list))));
        }
    }
    for fault in [5, 6] {
        let bad = spoiled(random, WRITES, &[(3, 7), (3, fault)]);
        let name = format!("refused_{fault}_and_7_in_one_record");
        tapes.push((name, tape_with(random, 1, bad)));
    }
}

/// Refusal 9: a lone length byte, and a line cut by one byte, by three and by all.
fn cut_tapes(random: &Random, tapes: &mut Tapes) {
    for lines in LINES_BEFORE {
        for byte in [0, 3, 255] {
            let mut tape = tape_of(&good_lists(random, lines));
            tape.push(byte);
            let name = format!("refused_9_lone_byte_{byte}_after_{lines}_lines");
            tapes.push((name, tape));
        }
    }
    for lines in LINES_BEFORE {
        for (writes, by) in [(WRITES, 1), (WRITES, 3), (WRITES, 24), (228, 1)] {
            let mut tape = tape_of(&good_lists(random, lines));
            add_line(&mut tape, &list_of(&list_of_length(random, writes)));
            tape.truncate(tape.len() - by);
            let bytes = 3 * u16::from(writes);
            let name = format!("refused_9_{bytes}_cut_by_{by}_after_{lines}_lines");
            tapes.push((name, tape));
        }
    }
}

/// Refusal 8: empty input, and versions that are not 1, with lines and without; and the version
/// byte alone, which is good.
fn versions(random: &Random, tapes: &mut Tapes) {
    tapes.push(("refused_8_empty_input".into(), vec![]));
    tapes.push(("version_byte_alone".into(), vec![VERSION]));
    for version in [0, 2, 255] {
        let mut with_lines = tape_of(&good_lists(random, 3));
        with_lines[0] = version;
        for (how, tape) in [
            ("_alone", vec![version]),
            ("", with_lines),
            ("_also_cut", vec![version, 0, 3, 9]),
        ] {
            tapes.push((format!("refused_8_version_{version}{how}"), tape));
        }
    }
    tapes.push(("refused_8_version_2_four_zeros".into(), vec![2, 0, 0, 0, 0]));
}
