//! One line: refused, or 228 clocks from h = 0 that fill the two lent buffers.

use crate::model::clock::clock;
use crate::model::line_faults::{line_faults, Lengths};
use crate::model::state::State;
use crate::model::write_list::writes_by_clock;

/// The clock of column 0.
const FIRST_COLUMN: usize = 68;

/// The answer of a line call; the number is 0 for an accepted one.
#[derive(Clone, Copy, Debug, PartialEq, Eq)]
pub struct LineAnswer {
    pub number: u8,
    pub record: usize,
    pub state: State,
}

/// The answer of a line call with a write list and the buffers lent for object bytes and for colour
/// bytes. The first of its faults refuses it: the answer is then the given state, and both buffers
/// stay as they are.
pub fn line(given: &State, list: &[u8], objects: &mut [u8], colours: &mut [u8]) -> LineAnswer {
    let lengths = Lengths {
        objects: objects.len(),
        colours: colours.len(),
    };
    match line_faults(given, list, lengths).first() {
        Some(refusal) => LineAnswer {
            number: refusal.number,
            record: refusal.record,
            state: *given,
        },
        None => LineAnswer {
            number: 0,
            record: 0,
            state: run_clocks(given, list, objects, colours),
        },
    }
}

/// The 228 clocks of a call without faults; answers the state after them.
fn run_clocks(given: &State, list: &[u8], objects: &mut [u8], colours: &mut [u8]) -> State {
    let mut state = *given;
    for (h, write) in writes_by_clock(list).into_iter().enumerate() {
        let answer = clock(&state, write);
        if h >= FIRST_COLUMN {
            objects[h - FIRST_COLUMN] = answer.byte;
            colours[h - FIRST_COLUMN] = answer.colour;
        }
        state = answer.state;
    }
    state
}
