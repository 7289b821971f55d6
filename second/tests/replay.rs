//! Tests of playing a tape: one line at a place, and a whole tape from the start state.

use crate::cases::bench::checks;
use crate::cases::build_tapes::tape_of;
use crate::model::replay::{play_line, replay, LineBytes};
use crate::model::state::State;
use crate::tests::playing::{at, play_check, Played};

/// Asserts that playing with object and colour buffers of these lengths is refused so, or finds the
/// end if the number is 0, giving back state and buffers as they were.
fn assert_kept(given: &State, tape: &[u8], place: u64, lengths: [usize; 2], refusal: (u8, usize)) {
    let before = lengths.map(|length| (0..length).map(|n| n as u8 ^ 0x55).collect::<Vec<u8>>());
    let [mut objects, mut colours] = before.clone();
    let answer = play_line(given, tape, place, &mut objects, &mut colours);
    assert_eq!((answer.number, answer.record), refusal);
    assert_eq!((answer.place, answer.state), (0, *given));
    assert_eq!([objects, colours], before);
}

// Settled: reading first (8, 9, 4, 9), then the line's own refusals (1, 2, 3, 11, 5 to 7); at the
// tape's end the state and both buffers are as given.
#[test]
fn reading_is_checked_before_the_line_and_the_line_in_its_order() {
    let readings: [(&[u8], u64, u8); 8] = [
        (&[1, 0, 3, 9, 0x2A, 0], 6, 0),
        (&[1], 1, 0),
        (&[2, 0, 0], 1, 8),
        (&[1, 0, 0], 0, 9),
        (&[1, 0, 0], u64::MAX, 9),
        (&[1, 0], 1, 9),
        (&[1, 0, 1, 9], 1, 4),
        (&[1, 0, 3, 9, 0x2A], 1, 9),
    ];
    let calls = [
        (at(228), [160, 160], 1),
        (at(228), [7, 160], 1),
        (at(228), [160, 7], 1),
        (at(9), [160, 160], 2),
        (at(9), [161, 160], 2),
        (at(9), [160, 161], 2),
        (at(0), [159, 160], 3),
        (at(0), [159, 159], 3),
        (at(0), [160, 0], 11),
        (at(0), [160, 159], 11),
        (at(0), [160, 161], 11),
    ];
    for (state, lengths, number) in calls {
        for (tape, place, of_reading) in readings {
            assert_kept(&state, tape, place, lengths, (of_reading, 0));
        }
        for register in [0x2A, 0x00] {
            let tape = [1, 0, 3, 9, register, 0];
            assert_kept(&state, &tape, 1, lengths, (number, 0));
        }
    }
    let lists = [
        (vec![5, 4, 0, 228, 4, 0], (5, 1)),
        (vec![5, 4, 0, 6, 4, 0, 6, 0, 0], (6, 2)),
        (vec![5, 4, 0, 6, 4, 0, 7, 0, 0], (7, 2)),
    ];
    for (list, refusal) in lists {
        assert_kept(&at(0), &tape_of(&[vec![], list]), 3, [160; 2], refusal);
    }
}

// "Each later one ... gets the state the call before handed back": the lines of a tape from the
// start state, one after another.
#[test]
fn a_replay_is_the_chain_of_its_lines_from_the_start_state() {
    for check in checks() {
        let played = play_check(&check);
        let replay = replay(&check.tape());
        let bytes = |played: &Played| LineBytes {
            objects: played.bytes,
            colours: played.colours,
        };
        let lines: Vec<LineBytes> = played.iter().map(bytes).collect();
        assert_eq!(replay.lines, lines);
        assert_eq!(replay.end.ok(), played.last().map(|played| played.state));
    }
    let none = replay(&[1]);
    assert_eq!((none.lines.len(), none.end), (0, Ok(State::START)));
}
