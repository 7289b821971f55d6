//! Playing a tape: one line at a place, and all its lines from the start state.

use crate::model::line::line;
use crate::model::line_faults::COLUMNS;
use crate::model::refusal::Refusal;
use crate::model::state::State;
use crate::model::tape::{read, Reading, FIRST_PLACE};

/// The answer of playing one line of a tape. The number is 0 where a line was played or the tape
/// has ended; the place is the next one, or 0 where the tape has ended or the call is refused.
#[derive(Clone, Copy, Debug, PartialEq, Eq)]
pub struct TapeAnswer {
    pub number: u8,
    pub record: usize,
    pub place: u64,
    pub state: State,
}

/// The answer of playing the line at a place of a tape. Refuses what reading refuses there, then
/// what the line call refuses. Refused, or at the tape's end, the answer is the given state, and
/// both buffers stay as they are.
pub fn play_line(
    given: &State,
    tape: &[u8],
    place: u64,
    objects: &mut [u8],
    colours: &mut [u8],
) -> TapeAnswer {
    match read(tape, place) {
        Err(refusal) => TapeAnswer {
            number: refusal.number,
            record: refusal.record,
            place: 0,
            state: *given,
        },
        Ok(Reading::Ended) => TapeAnswer {
            number: 0,
            record: 0,
            place: 0,
            state: *given,
        },
        Ok(Reading::Line { start, end }) => {
            let answer = line(given, &tape[start..end], objects, colours);
            TapeAnswer {
                number: answer.number,
                record: answer.record,
                place: if answer.number == 0 { end as u64 } else { 0 },
                state: answer.state,
            }
        }
    }
}

/// The bytes of a line that was run: its object bytes and its colour bytes.
#[derive(Clone, Copy, Debug, PartialEq, Eq)]
pub struct LineBytes {
    pub objects: [u8; COLUMNS],
    pub colours: [u8; COLUMNS],
}

/// A tape that was replayed: the bytes of each line that was run, and the state after the last, or
/// the refusal of the line after them.
#[derive(Clone, Debug, PartialEq, Eq)]
pub struct Replay {
    pub lines: Vec<LineBytes>,
    pub end: Result<State, Refusal>,
}

/// The replay of a whole tape from the start state, up to its end or to the first refusal.
pub fn replay(tape: &[u8]) -> Replay {
    let mut lines = Vec::new();
    let mut state = State::START;
    let mut place = FIRST_PLACE;
    loop {
        let mut bytes = LineBytes {
            objects: [0; COLUMNS],
            colours: [0; COLUMNS],
        };
        let (objects, colours) = (&mut bytes.objects, &mut bytes.colours);
        let answer = play_line(&state, tape, place, objects, colours);
        if answer.number != 0 {
            let refusal = Refusal {
                number: answer.number,
                record: answer.record,
            };
            return Replay {
                lines,
                end: Err(refusal),
            };
        }
        if answer.place == 0 {
            return Replay {
                lines,
                end: Ok(answer.state),
            };
        }
        lines.push(bytes);
        state = answer.state;
        place = answer.place;
    }
}
