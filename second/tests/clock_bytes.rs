//! Tests of the program that shows a line of a tape clock by clock. The papers have no such program;
//! the sentences are those of the chip that its records show.

use crate::cases::bench::{checks, PRINTED_TAPE};
use crate::cases::build_lists::list_of;
use crate::cases::build_tapes::tape_of;
use crate::model::clock::Done;
use crate::model::clock_bytes;
use crate::model::object::{BL, M0, P0, P1};
use crate::model::registers::Register;
use crate::model::state::State;
use crate::model::write_list::writes_by_clock;
use crate::tests::counter::plain_step;
use crate::tests::playing::{check, done, longest_tape, play_check};

/// The bytes of a record, and of a line that is run: 228 records.
const RECORD: usize = 38;
const LINE: usize = 228 * RECORD;

/// The places in a record of the answer byte, of the slot and of the late flag.
const ANSWER: usize = 1;
const SLOT: usize = 2;
const LATE: usize = 3;

/// The places in a record of what it tells of P0; those of P1 stand eight further on, those of each
/// later object as far on as the two players' and six bytes for each missile before it.
const POSITION: usize = 4;
const RISEN: usize = 5;
const COUNTER: usize = 6;
const AGE: usize = 7;
const MOTION: usize = 8;
const LIVE: usize = 9;
const PIXEL: usize = 10;
const SHOWN: usize = 11;

/// The place in a record of what it tells of an object, from that of P0.
fn of(object: usize, place: usize) -> usize {
    place + [0, 8, 16, 22, 28][object]
}

/// What is written for an input of these bytes.
fn written(input: &[u8]) -> Vec<u8> {
    let mut out = Vec::new();
    clock_bytes::write(&mut &input[..], &mut out).unwrap();
    out
}

/// What is written for the line with this number of a tape.
fn bytes_of_line(number: u16, tape: &[u8]) -> Vec<u8> {
    written(&[&number.to_be_bytes(), tape].concat())
}

/// The records of a line that is run; each begins with its clock.
fn records(number: u16, tape: &[u8]) -> Vec<Vec<u8>> {
    let bytes = bytes_of_line(number, tape);
    assert_eq!(bytes.len(), LINE);
    let records: Vec<Vec<u8>> = bytes.chunks(RECORD).map(<[u8]>::to_vec).collect();
    assert!(records.iter().map(|record| record[0]).eq(0..228));
    records
}

/// The records of the line with this number of the tape of these write lists.
fn records_of(number: u16, lists: &[Vec<u8>]) -> Vec<Vec<u8>> {
    records(number, &tape_of(lists))
}

/// The byte at a place of each record.
fn bytes_at(records: &[Vec<u8>], place: usize) -> Vec<u8> {
    records.iter().map(|record| record[place]).collect()
}

/// The clocks whose record has a 1 at a place; the others have a 0 there.
fn clocks_with(records: &[Vec<u8>], place: usize) -> Vec<u8> {
    assert!(records.iter().all(|record| record[place] <= 1));
    let with = records.iter().filter(|record| record[place] == 1);
    with.map(|record| record[0]).collect()
}

/// The clocks from a first to a last.
fn clocks(first: u8, last: u8) -> Vec<u8> {
    (first..=last).collect()
}

/// Every fourth clock from a first to a last, then the clocks from another first to the line's end.
fn fourths_then_from(first: u8, last: u8, from: u8) -> Vec<u8> {
    let fourths = (first..=last).step_by(4);
    fourths.chain(from..=227).collect()
}

/// The record that the description gives for a clock that is not given a strobe at position 159: there
/// a position has risen exactly where the object was pulsed and not strobed.
fn described(h: u8, done: &Done) -> Vec<u8> {
    let state = done.state;
    let mut bytes = vec![h, done.byte, state.slot, u8::from(state.late)];
    for (n, object) in state.objects.into_iter().enumerate() {
        let strobed = done.register == Some(Register::Strobe(n));
        let rises = done.pulsed[n] && !strobed;
        let bits = bits_of_position(object.position);
        let value = u8::from_str_radix(&bits, 2).unwrap();
        bytes.extend([object.position, u8::from(rises), value]);
        bytes.extend([object.age, object.motion, u8::from(object.live)]);
        if n < 2 {
            bytes.extend([state.drawings[n].pixel, state.drawings[n].shown]);
        }
    }
    bytes
}

/// The bits of the position counter at a position: a step from 000000 for each four positions.
fn bits_of_position(position: u8) -> String {
    let mut bits = "000000".to_string();
    for _ in 0..position / 4 {
        bits = plain_step(&bits);
    }
    bits
}

// "A line is 228 clocks from h = 0." "Each later one ... gets the state the call before handed back."
// Step 10: the answer bytes of the columns are those of the line's buffer.
#[test]
fn the_records_are_those_of_the_lines_single_clocks() {
    for check in checks() {
        let tape = check.tape();
        let mut state = State::START;
        for (number, line) in play_check(&check).iter().enumerate() {
            let records = records(number as u16, &tape);
            assert_eq!(bytes_at(&records, ANSWER)[68..], line.bytes);
            let list = list_of(&check.lines[number]);
            for (h, write) in (0..).zip(writes_by_clock(&list)) {
                let done = done(&state, write);
                assert_eq!(records[usize::from(h)], described(h, &done));
                state = done.state;
            }
        }
    }
}

// "Its position counter's count is position / 4, rounded down." "Counts 4, 16, 39 ... are 111100,
// 011100, 101101." Each value is there for four positions, 000000 again at the last clock.
#[test]
fn the_counters_value_is_that_of_a_fourth_of_the_position() {
    let records = records_of(0, &[vec![]]);
    for object in 0..5 {
        for record in &records {
            let bits = format!("{:06b}", record[of(object, COUNTER)]);
            assert_eq!(bits, bits_of_position(record[of(object, POSITION)]));
        }
        let values = bytes_at(&records, of(object, COUNTER));
        for (count, value) in [(4, 0b111100), (16, 0b011100), (39, 0b101101)] {
            let first = 67 + 4 * count;
            assert_eq!(values[first..first + 4], [value; 4]);
            assert!(values[first - 1] != value && values[first + 4] != value);
        }
        assert_eq!(values[..71], [0; 71]);
        assert_eq!(values[227], 0);
    }
}

// Step 6: "On a pulse the position rises by one, 159 going to 0", which counts as risen. "Starts: 0
// always". Step 5: in a line without writes the pulses are those of the clocks that are not blank.
#[test]
fn a_line_without_writes_rises_at_every_visible_clock() {
    let records = records_of(0, &[vec![]]);
    for object in 0..5 {
        assert_eq!(clocks_with(&records, of(object, RISEN)), clocks(68, 227));
        let positions = bytes_at(&records, of(object, POSITION));
        assert_eq!(positions[..68], [0; 68]);
        assert!(positions[68..227].iter().copied().eq(1..160));
        assert_eq!(positions[227], 0);
        let ages = bytes_at(&records, of(object, AGE));
        assert_eq!((&ages[..227], ages[227]), (&[64; 227][..], 0));
    }
    assert_eq!(bytes_at(&records, SLOT), [16; 228]);
    assert_eq!(clocks_with(&records, LATE), []);
}

// "Missile 0 enabled, strobed at clock 30: the next line lights column 3." Step 7: "A position strobe
// this clock makes the position 0, pulse or not". Before it the missile is at position 127.
#[test]
fn bench_a_strobe_at_clock_30_makes_the_position_0() {
    let before = vec![0, 0x1D, 2, 100, 0x12, 0];
    let lists = [before, vec![30, 0x12, 0], vec![]];
    let strobed = records_of(1, &lists);
    let positions = bytes_at(&strobed, of(M0, POSITION));
    assert_eq!(positions[..30], [127; 30]);
    assert_eq!(positions[30..68], [0; 38]);
    assert_eq!(clocks_with(&strobed, of(M0, RISEN)), clocks(68, 227));
    assert_eq!(bytes_at(&strobed, of(M0, COUNTER))[30..71], [0; 41]);
    assert_eq!(bytes_at(&strobed, of(M0, AGE))[..227], [64; 227]);
    let lit = records_of(2, &lists);
    let shown = lit[68..].iter().filter(|record| record[ANSWER] == 4);
    let at: Vec<_> = shown
        .map(|record| [record[0], record[of(M0, POSITION)], record[of(M0, AGE)]])
        .collect();
    assert_eq!(at, [[71, 4, 4]]);
}

// "Extra pulses for half bytes 0, 7 ...: 8, 15." "HMOVE at 9 ... At column 3, 7 gives 156": it compares
// at clocks 12, 16 and so on to 72, all of them blank. Step 4: "Equal: its flag falls, no pulse. ...
// Then the slot rises by one; at 16 all flags fall."
#[test]
fn bench_hmove_at_9_with_half_byte_7_rises_fifteen_times_in_the_blank() {
    let records = records(2, &PRINTED_TAPE);
    assert_eq!(
        clocks_with(&records, of(M0, RISEN)),
        fourths_then_from(12, 68, 76)
    );
    assert_eq!(records[75][of(M0, POSITION)], 15);
    assert_eq!(records[227][of(M0, POSITION)], 7);
    assert_eq!(clocks_with(&records, of(M0, LIVE)), clocks(9, 71));
    assert_eq!(bytes_at(&records, of(M0, MOTION)), [7; 228]);
    for other in [0, 1, 3, 4] {
        assert_eq!(
            clocks_with(&records, of(other, RISEN)),
            fourths_then_from(12, 40, 76)
        );
        assert_eq!(clocks_with(&records, of(other, LIVE)), clocks(9, 43));
        assert_eq!(bytes_at(&records, of(other, MOTION)), [0; 228]);
    }
    let slots = bytes_at(&records, SLOT);
    assert_eq!((&slots[..9], &slots[9..12]), (&[16; 9][..], &[0; 3][..]));
    for (h, slot) in (12..72).zip((1..16).flat_map(|slot| [slot; 4])) {
        assert_eq!(slots[h], slot);
    }
    assert_eq!(slots[72..], [16; 156]);
    assert_eq!(
        bytes_at(&records, ANSWER)[66..77],
        [128, 128, 64, 64, 64, 64, 64, 64, 64, 64, 0]
    );
}

// "With 0: at 67, 6 right; at 68, nothing": of the comparisons from clock 68 on two are in the blank,
// which the late flag makes eight columns longer, or none.
#[test]
fn bench_hmove_at_67_rises_twice_in_the_blank_and_at_68_not() {
    let tape = |hmove| check(&format!("missile_at_36_hmove_at_{hmove}_half_byte_0")).tape();
    let late = records(2, &tape(67));
    assert_eq!(
        clocks_with(&late, of(M0, RISEN)),
        fourths_then_from(68, 72, 76)
    );
    assert_eq!(clocks_with(&late, of(M0, LIVE)), clocks(67, 99));
    assert_eq!(clocks_with(&late, LATE), clocks(67, 227));
    assert_eq!(bytes_at(&late, SLOT)[66..74], [16, 0, 1, 1, 1, 1, 2, 2]);
    assert_eq!(bytes_at(&late, SLOT)[127..129], [15, 16]);
    assert_eq!(
        (late[0][of(M0, POSITION)], late[227][of(M0, POSITION)]),
        (127, 121)
    );
    let visible = records(2, &tape(68));
    assert_eq!(clocks_with(&visible, of(M0, RISEN)), clocks(68, 227));
    assert_eq!(clocks_with(&visible, of(M0, LIVE)), clocks(68, 103));
    assert_eq!(clocks_with(&visible, LATE), []);
    assert_eq!(bytes_at(&visible, SLOT)[67..73], [16, 0, 0, 0, 0, 1]);
    assert_eq!(visible[227][of(M0, POSITION)], 127);
}

// "At 227, 8 left and the next line has no blank columns." Settled: motion may cross the line end; slot
// and live flags stay.
#[test]
fn bench_hmove_at_227_rises_eight_times_in_the_next_blank() {
    let tape = check("missile_at_36_hmove_at_227_half_byte_0").tape();
    let strobed = records(2, &tape);
    assert_eq!(clocks_with(&strobed, of(M0, LIVE)), [227]);
    assert_eq!(bytes_at(&strobed, SLOT)[226..], [16, 0]);
    assert_eq!(clocks_with(&strobed, LATE), []);
    let next = records(3, &tape);
    assert_eq!(
        clocks_with(&next, of(M0, RISEN)),
        fourths_then_from(0, 28, 68)
    );
    assert_eq!(clocks_with(&next, of(M0, LIVE)), clocks(0, 31));
    assert_eq!(bytes_at(&next, SLOT)[..9], [1, 1, 1, 1, 2, 2, 2, 2, 3]);
    assert_eq!(bytes_at(&next, SLOT)[59..62], [15, 16, 16]);
    assert!(!bytes_at(&next, ANSWER).contains(&64));
}

// Step 1: "If h = 0 the late flag falls." Step 2: HMOVE "at clocks 0 to 67 ... raises the late flag",
// also at 0, where it has fallen before.
#[test]
fn the_late_flag_falls_at_clock_0_of_the_next_line() {
    let hmove = |clock| vec![clock, 0x2A, 0];
    let lists = [hmove(9), vec![], hmove(0), hmove(68), vec![]];
    let raised = [clocks(9, 227), vec![], clocks(0, 227), vec![], vec![]];
    for (number, late) in (0..).zip(raised) {
        let records = records_of(number, &lists);
        assert_eq!(clocks_with(&records, LATE), late);
    }
}

// Step 7: "makes the position 0, pulse or not, and there is no start; age still follows the pulse. The
// ball's strobe also makes its age 0." So the position has not risen, though the object was pulsed.
#[test]
fn a_strobe_on_a_clock_with_a_pulse_is_no_rise() {
    for object in 0..5 {
        let strobe = 0x10 + object as u8;
        // On a visible clock, at position and age 32; in the blank, with an extra pulse, at 0.
        let lines = [
            (100, vec![100, strobe, 0], 32),
            (12, vec![9, 0x2A, 0, 12, strobe, 0], 0),
        ];
        for (clock, list, before) in lines {
            let records = records_of(1, &[vec![], list]);
            let shown =
                |h: usize| [POSITION, RISEN, AGE].map(|place| records[h][of(object, place)]);
            let after = if object == BL { 0 } else { before + 1 };
            assert_eq!(shown(clock - 1)[0], before);
            assert_eq!(shown(clock), [0, 0, after]);
            let other = (object + 1) % 5;
            assert_eq!(
                [POSITION, RISEN].map(|place| records[clock][of(other, place)]),
                [before + 1, 1]
            );
        }
    }
}

// The record compares positions: a strobe at position 159 takes it to 0 and so counts as risen, with a
// pulse or without. Step 7: "there is no start", the age stays.
#[test]
fn a_strobe_at_position_159_counts_as_risen() {
    for (clock, pulsed) in [(30, false), (68, true)] {
        let strobe = |clock| vec![clock, 0x10, 0];
        let records = records_of(1, &[strobe(68), strobe(clock)]);
        let h = usize::from(clock);
        assert_eq!(records[h - 1][of(P0, POSITION)], 159);
        assert_eq!(
            [POSITION, RISEN, AGE].map(|place| records[h][of(P0, place)]),
            [0, 1, 64]
        );
        assert_eq!(records[h][of(M0, RISEN)], u8::from(pulsed));
    }
}

// Two: "a copy starts drawing at age 5, or 6 when its size at the start is 2 or 4. On that pulse it
// shows pixel 0 for the first time." Strobed at clock 100 it does so at clock 106 of the next line;
// each pixel is shown for four clocks, then it is 8 and 0 again.
#[test]
fn a_players_pixel_and_clocks_shown_follow_its_live_flag() {
    for (player, nusiz) in [(P0, 0x04), (P1, 0x05)] {
        let strobed = vec![0, nusiz, 7, 100, 0x10 + player as u8, 0];
        let records = records_of(1, &[strobed, vec![]]);
        let both = |h: usize| [PIXEL, SHOWN].map(|place| records[h][of(player, place)]);
        let pixels = (0..8).flat_map(|pixel| (1..=4).map(move |shown| [pixel, shown]));
        assert!(pixels.eq((106..138).map(both)));
        assert!((0..106).chain(138..228).all(|h| both(h) == [8, 0]));
    }
    let other = records_of(1, &[vec![0, 0x04, 7, 100, 0x10, 0], vec![]]);
    assert_eq!(
        [PIXEL, SHOWN].map(|place| other[110][of(P1, place)]),
        [8, 0]
    );
}

// "L being the line not run, from 0": a line past the tape's end, a refused line and the lines after
// it are not run and nothing is written; those before it are.
#[test]
fn nothing_is_written_for_a_line_that_is_not_run() {
    let ends: [&[u8]; 8] = [
        &[],
        &[0],
        &[0, 1, 9],
        &[0, 3, 9, 0x2A],
        &[0, 3, 228, 4, 0, 0, 0],
        &[0, 6, 5, 4, 0, 5, 4, 0, 0, 0],
        &[0, 6, 0, 14, 9, 1, 0, 0, 0, 0],
        &[0, 3, 0, 0, 0, 0, 0],
    ];
    for end in ends {
        let tape = [&PRINTED_TAPE[..], end].concat();
        for number in 0..4 {
            let bytes = bytes_of_line(number, &tape);
            assert_eq!(bytes.len(), LINE);
            assert_eq!(bytes, bytes_of_line(number, &PRINTED_TAPE));
        }
        for number in [4, 5, 6, 255, 256, 65_535] {
            assert_eq!(bytes_of_line(number, &tape), []);
        }
    }
    for tape in [&[][..], &[1], &[1, 0], &[2, 0, 0], &[0, 0, 0]] {
        assert_eq!(bytes_of_line(0, tape), []);
    }
    for input in [&[][..], &[0], &[1], &[0, 0], &[1, 0]] {
        assert_eq!(written(input), []);
    }
}

// The line's number is two bytes, the higher first. "Each later one ... gets the state the call before
// handed back": HMP0 is written in line 258 and kept.
#[test]
fn the_lines_number_is_big_endian() {
    let mut lists = vec![vec![]; 520];
    lists[258] = vec![5, 0x20, 0x70];
    let tape = tape_of(&lists);
    let numbers = [([1, 1], 0, 0), ([1, 2], 0, 7), ([2, 1], 7, 7)];
    for (number, first, last) in numbers {
        let bytes = written(&[&number[..], &tape].concat());
        let values: Vec<u8> = bytes
            .chunks(RECORD)
            .map(|record| record[of(P0, MOTION)])
            .collect();
        assert_eq!(
            (&values[..5], &values[5..]),
            (&[first; 5][..], &[last; 223][..])
        );
    }
}

// "Input over 65,536 bytes": the limit is that of the tape, without the two bytes before it. Settled:
// exactly 65,536 bytes are an ordinary tape.
#[test]
fn a_tape_of_over_65536_bytes_shows_nothing() {
    let mut tape = longest_tape();
    assert_eq!(tape.len(), 65_536);
    for (number, length) in [(0, LINE), (617, LINE), (618, 0), (65_535, 0)] {
        assert_eq!(bytes_of_line(number, &tape).len(), length);
    }
    for length in [65_537, 65_538, 65_539, 140_000] {
        tape.resize(length, 0);
        assert_eq!(bytes_of_line(0, &tape), []);
    }
}
