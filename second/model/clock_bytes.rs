//! The clocks of one line of a tape: for each of its 228 clocks a record of what the clock answers and
//! of what the state holds after it, raw.

use crate::model::clock::{clock, Answer};
use crate::model::counter::{value_of_count, Value};
use crate::model::drawing::Drawing;
use crate::model::input::{bytes_of_input, MOST_TAPE_BYTES};
use crate::model::line_faults::COLUMNS;
use crate::model::object::{Object, P0, P1};
use crate::model::replay::play_line;
use crate::model::state::State;
use crate::model::tape::{stretch, FIRST_PLACE};
use crate::model::write_list::writes_by_clock;
use std::io::{self, Read, Write};

/// The most bytes that are read: the line's number in two bytes and one byte more than a tape that is
/// played has.
const MOST_INPUT_BYTES: usize = 2 + MOST_TAPE_BYTES + 1;

/// Writes the records of the line that the input asks for: the line's number in two bytes, the higher
/// first, then a tape; an input of fewer bytes asks for none. A read error counts as the end of the
/// input; ends early with the first write error.
pub fn write(input: &mut dyn Read, out: &mut dyn Write) -> io::Result<()> {
    out.write_all(&match bytes_of_input(input, MOST_INPUT_BYTES)[..] {
        [high, low, ref tape @ ..] => clock_bytes(u16::from_be_bytes([high, low]), tape),
        _ => Vec::new(),
    })
}

/// The records of the line with this number, counted from 0, of a tape that is played from the start
/// state; none where that line is not run, and none for a tape of over 65,536 bytes.
fn clock_bytes(number: u16, tape: &[u8]) -> Vec<u8> {
    if tape.len() > MOST_TAPE_BYTES {
        return Vec::new();
    }
    match given_to_line(number, tape) {
        Some((state, list)) => records(state, list),
        None => Vec::new(),
    }
}

/// The state and the write list that the line with this number is given; none where the tape ends
/// before it, or where it or a line before it is refused.
fn given_to_line(number: u16, tape: &[u8]) -> Option<(State, &[u8])> {
    let mut given = None;
    let mut state = State::START;
    let mut place = FIRST_PLACE;
    for _ in 0..=number {
        let (mut objects, mut colours) = ([0; COLUMNS], [0; COLUMNS]);
        let answer = play_line(&state, tape, place, &mut objects, &mut colours);
        if answer.place == 0 {
            return None;
        }
        given = Some((state, stretch(tape, place)));
        state = answer.state;
        place = answer.place;
    }
    given
}

/// The records of the 228 clocks of a line that is accepted, one after another.
fn records(mut state: State, list: &[u8]) -> Vec<u8> {
    let mut bytes = Vec::new();
    for write in writes_by_clock(list) {
        let answer = clock(&state, write);
        bytes.extend(record(&state, &answer));
        state = answer.state;
    }
    bytes
}

/// The record of a clock on a state: h as the clock began, the answer byte, the slot and the late flag
/// after it, then six bytes for each of P0, P1, M0, M1 and BL, those of a player followed by two more.
fn record(given: &State, answer: &Answer) -> Vec<u8> {
    let after = answer.state;
    let mut bytes = vec![given.h, answer.byte, after.slot, u8::from(after.late)];
    for (n, (old, new)) in given.objects.into_iter().zip(after.objects).enumerate() {
        bytes.extend(object_bytes(old, new));
        if n == P0 || n == P1 {
            bytes.extend(drawing_bytes(after.drawings[n]));
        }
    }
    bytes
}

/// The bytes of an object after a clock: its position, whether that is one above the old one, the
/// value of its position counter, its age, its motion value and its live flag.
fn object_bytes(old: Object, new: Object) -> [u8; 6] {
    [
        new.position,
        u8::from(new.position == (old.position + 1) % 160),
        position_counter(new.position),
        new.age,
        new.motion,
        u8::from(new.live),
    ]
}

/// The bytes of a player's drawing after a clock: its pixel and its clocks shown.
fn drawing_bytes(drawing: Drawing) -> [u8; 2] {
    [drawing.pixel, drawing.shown]
}

/// The value of the position counter at a position, whose count is position / 4, rounded down. No
/// position has a count that is refused.
fn position_counter(position: u8) -> u8 {
    value_of_count(position / 4).map_or(0, Value::to_byte)
}
