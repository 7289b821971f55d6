//! Tests of a line: "A line and a tape", refusals 1 to 7 and 11 in the order of checks.

use crate::model::clock::clock;
use crate::model::line::line;
use crate::model::state::State;
use crate::tests::playing::{at, play, to};

/// Asserts that a call with object and colour buffers of these lengths is refused so, giving back
/// state and buffers as they were.
fn assert_refused(given: &State, list: &[u8], lengths: [usize; 2], number: u8, record: usize) {
    let before = lengths.map(|length| (0..length).map(|n| n as u8).collect::<Vec<u8>>());
    let [mut objects, mut colours] = before.clone();
    let answer = line(given, list, &mut objects, &mut colours);
    assert_eq!((answer.number, answer.record), (number, record));
    assert_eq!((answer.state, [objects, colours]), (*given, before));
}

/// A write of PF1 at every clock.
fn full_list() -> Vec<u8> {
    (0..228).flat_map(|clock| [clock, 0x0E, clock]).collect()
}

// "A line is 228 clocks from h = 0 ... It fills a lent buffer of 160 answer bytes." One: "let a line
// fill a second lent buffer of 160 colour bytes beside the object bytes". 4: a list of 228 records
// is accepted.
#[test]
fn a_line_is_228_single_clocks() {
    let first = vec![
        0, 0x1B, 0xA5, 1, 0x1D, 2, 2, 0x04, 0x33, 5, 0x06, 0x35, 9, 0x2A, 0, 90, 0x12, 0, 100,
        0x09, 0x81,
    ];
    let second = vec![
        3, 0x20, 0x70, 4, 0x2A, 1, 80, 0x0E, 255, 90, 0x08, 0xC3, 200, 0x10, 0, 227, 0x2A, 0,
    ];
    let mut state = State::START;
    for list in [first, second, vec![], full_list()] {
        let given = state;
        let (mut bytes, mut colours) = (Vec::new(), Vec::new());
        for h in 0..228 {
            let record = list.chunks(3).find(|record| record[0] == h);
            let answer = clock(&state, record.and_then(|record| to(record[1], record[2])));
            assert_eq!((answer.number, state.h), (0, h));
            state = answer.state;
            bytes.push(answer.byte);
            colours.push(answer.colour);
        }
        for old in [0, 255] {
            let mut buffers = [[old; 160]; 2];
            let [objects, coloured] = &mut buffers;
            let answer = line(&given, &list, objects, coloured);
            assert_eq!((answer.number, answer.record), (0, 0));
            assert_eq!(answer.state, state);
            assert_eq!(buffers[0], bytes[68..]);
            assert_eq!(buffers[1], colours[68..]);
        }
    }
}

// "The order of checks": 1, 2, 3, 4, then the records; each edge of 1 to 4. One: "11, colour buffer
// not 160 bytes, after 3".
#[test]
fn state_h_buffers_and_list_length_are_checked_in_this_order() {
    let lengths = [160, 5, 0, 161];
    for (list, length) in [(&[][..], 160), (&[255], 5), (&[255, 0, 0], 160)] {
        for colours in lengths {
            for h in 1..=255 {
                let number = if h > 227 { 1 } else { 2 };
                assert_refused(&at(h), list, [length, colours], number, 0);
            }
            for length in (0..160).chain(161..300) {
                assert_refused(&at(0), list, [length, colours], 3, 0);
            }
        }
        for length in (0..160).chain(161..300) {
            assert_refused(&at(0), list, [160, length], 11, 0);
        }
    }
    for length in (0..=690).filter(|length| length % 3 != 0 || *length > 684) {
        assert_refused(&at(0), &vec![255; length], [160; 2], 4, 0);
        assert_refused(&at(0), &vec![255; length], [160, 159], 11, 0);
    }
}

// "5 to 7 go record by record, the first bad record deciding." 5: "a clock over 227"; 6: "a clock
// not above the one before"; 7: "unknown register". The record's index counts from 0.
#[test]
fn the_first_bad_record_decides_and_in_it_the_clock_before_the_register() {
    let cases: [(&[u8], u8, usize); 16] = [
        (&[228, 4, 0], 5, 0),
        (&[255, 4, 0], 5, 0),
        (&[228, 0, 0], 5, 0),
        (&[5, 4, 0, 255, 0, 0], 5, 1),
        (&[5, 4, 0, 5, 4, 0], 6, 1),
        (&[0, 4, 0, 0, 4, 0], 6, 1),
        (&[5, 4, 0, 5, 0, 0], 6, 1),
        (&[5, 4, 0, 2, 0, 0], 6, 1),
        (&[0, 0, 0], 7, 0),
        (&[227, 0x2D, 0], 7, 0),
        (&[0, 0, 0, 255, 4, 0], 7, 0),
        (&[228, 4, 0, 1, 0, 0], 5, 0),
        (&[5, 4, 0, 5, 4, 0, 255, 0, 0], 6, 1),
        (&[5, 4, 0, 6, 0, 0, 6, 4, 0], 7, 1),
        (&[5, 4, 0, 4, 4, 0, 6, 0, 0], 6, 1),
        (&[5, 4, 0, 6, 4, 0, 7, 0, 0], 7, 2),
    ];
    for (list, number, record) in cases {
        assert_refused(&at(0), list, [160; 2], number, record);
        assert_refused(&at(0), list, [160, 161], 11, 0);
    }
    for (place, byte, number) in [(682, 0, 7), (681, 226, 6), (681, 228, 5)] {
        let mut list = full_list();
        list[place] = byte;
        assert_refused(&at(0), &list, [160; 2], number, 227);
    }
}

// Settled: HMOVE from clock 164 on leaves motion under way; the next line is accepted and ends it. A
// line without writes then pulses each object 160 times.
#[test]
fn motion_under_way_goes_on_over_the_line_end() {
    for (clock, slot) in [(163, 16), (164, 15), (227, 0)] {
        let played = play(&[vec![clock, 0x2A, 0], vec![], vec![]]);
        assert_eq!((played[0].state.slot, played[1].state.slot), (slot, 16));
        assert_eq!(played[1].state.objects, played[2].state.objects);
    }
}
