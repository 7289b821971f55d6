//! The cases: a single clock, a walk of clocks, a line call, a run of line calls, a tape call; and
//! the playing of them.

use crate::cases::build_lists::list_of;
use crate::model::clock::{clock, Answer, RegisterWrite};
use crate::model::line::{line, LineAnswer};
use crate::model::line_faults::COLUMNS;
use crate::model::replay::{play_line, TapeAnswer};
use crate::model::state::State;
use crate::model::write_list::ListedWrite;

/// The number of clocks of a walk.
pub const WALK_CLOCKS: usize = 1000;

/// The number of writes of a walk.
pub const WALK_WRITES: usize = 64;

/// The number of calls in a run's record.
pub const RUN_CALLS: usize = 20;

/// The number of calls without writes before a run's own, and after them.
pub const QUIET_CALLS: usize = 2;

/// A case of any kind.
#[derive(Clone, Debug, PartialEq, Eq)]
pub enum Case {
    Clock(Single),
    Walk(Walk),
    Line(LineCase),
    Run(RunCase),
    Tape(TapeCase),
}

/// One clock: the state given to it and its write.
#[derive(Clone, Copy, Debug, PartialEq, Eq)]
pub struct Single {
    pub state: State,
    pub write: Option<RegisterWrite>,
}

impl Single {
    /// Runs the clock.
    pub fn play(&self) -> Answer {
        clock(&self.state, self.write)
    }
}

/// A write of a walk and the number of clocks without a write before it.
#[derive(Clone, Copy, Debug, PartialEq, Eq)]
pub struct WaitedWrite {
    pub wait: u8,
    pub write: RegisterWrite,
}

/// 1,000 clocks from a state, each given the state that the one before handed back.
#[derive(Clone, Copy, Debug, PartialEq, Eq)]
pub struct Walk {
    pub state: State,
    pub writes: [WaitedWrite; WALK_WRITES],
}

impl Walk {
    /// The write of each clock; a write whose clock is 1,000 or later has none.
    pub fn writes_by_clock(&self) -> [Option<RegisterWrite>; WALK_CLOCKS] {
        let mut writes = [None; WALK_CLOCKS];
        let mut clock = 0;
        for waited in &self.writes {
            clock += usize::from(waited.wait);
            if let Some(place) = writes.get_mut(clock) {
                *place = Some(waited.write);
            }
            clock += 1;
        }
        writes
    }

    /// Runs the clocks.
    pub fn play(&self) -> Vec<Answer> {
        let mut state = self.state;
        let answers = self.writes_by_clock().into_iter().map(|write| {
            let answer = clock(&state, write);
            state = answer.state;
            answer
        });
        answers.collect()
    }
}

/// A line call: the lengths of the object buffer and of the colour buffer lent to it, and its write
/// list.
#[derive(Clone, Debug, PartialEq, Eq)]
pub struct Call {
    pub length: u8,
    pub colour_length: u8,
    pub list: Vec<u8>,
}

/// What the first byte of the colour buffer lent to a call is more than that of the object buffer.
const COLOURS_FROM: usize = 100;

/// A call that was made: its answer, the object buffer and the colour buffer as it returns.
#[derive(Clone, Debug, PartialEq, Eq)]
pub struct Played<A = LineAnswer> {
    pub answer: A,
    pub buffer: Vec<u8>,
    pub colours: Vec<u8>,
}

impl<A> Played<A> {
    /// Makes a call that is lent an object buffer and a colour buffer of these lengths, which hold
    /// rising bytes, modulo 256: the first from this one on, the second from 100 more.
    fn new(
        [length, colour_length]: [u8; 2],
        first_byte: usize,
        call: impl FnOnce(&mut [u8], &mut [u8]) -> A,
    ) -> Played<A> {
        let mut buffer = rising_bytes(length, first_byte);
        let mut colours = rising_bytes(colour_length, first_byte + COLOURS_FROM);
        let answer = call(&mut buffer, &mut colours);
        Played {
            answer,
            buffer,
            colours,
        }
    }
}

/// So many rising bytes from this one on, modulo 256.
fn rising_bytes(length: u8, first_byte: usize) -> Vec<u8> {
    let bytes = first_byte..first_byte + usize::from(length);
    bytes.map(|byte| byte as u8).collect()
}

impl Call {
    /// The call with these records and two buffers of 160 bytes.
    pub fn with(records: &[ListedWrite]) -> Call {
        Call {
            length: COLUMNS as u8,
            colour_length: COLUMNS as u8,
            list: list_of(records),
        }
    }

    /// Makes the call on a state, with buffers that hold rising bytes, the object buffer from this
    /// one on.
    pub fn play(&self, given: &State, first_byte: usize) -> Played {
        let lengths = [self.length, self.colour_length];
        Played::new(lengths, first_byte, |buffer, colours| {
            line(given, &self.list, buffer, colours)
        })
    }
}

/// One line call and the state given to it.
#[derive(Clone, Debug, PartialEq, Eq)]
pub struct LineCase {
    pub state: State,
    pub call: Call,
}

impl LineCase {
    /// Makes the call of the record with this number.
    pub fn play(&self, number: usize) -> Played {
        self.call.play(&self.state, number)
    }
}

/// A chain of calls and the state given to the first.
#[derive(Clone, Debug, PartialEq, Eq)]
pub struct RunCase {
    pub state: State,
    pub calls: Vec<Call>,
}

impl RunCase {
    /// The run from a state with these lines, filled up with calls without writes.
    pub fn of_lines(state: State, lines: &[Vec<ListedWrite>]) -> RunCase {
        let mut calls: Vec<Call> = lines.iter().map(|line| Call::with(line)).collect();
        calls.resize(RUN_CALLS, Call::with(&[]));
        RunCase { state, calls }
    }

    /// The whole chain: the run's own calls between two calls without writes before and two after.
    pub fn chain(&self) -> Vec<Call> {
        let quiet = vec![Call::with(&[]); QUIET_CALLS];
        [&quiet[..], &self.calls, &quiet].concat()
    }

    /// Plays the whole chain of the record with this number.
    pub fn play(&self, number: usize) -> Vec<Played> {
        play_chain(&self.state, &self.chain(), number)
    }
}

/// Makes calls one after another, each given the state that the one before handed back; the first
/// byte of the first object buffer is given, and rises by one from call to call.
pub fn play_chain(given: &State, calls: &[Call], first_byte: usize) -> Vec<Played> {
    let mut state = *given;
    let chain = calls.iter().zip(first_byte..).map(|(call, first_byte)| {
        let played = call.play(&state, first_byte);
        state = played.answer.state;
        played
    });
    chain.collect()
}

/// A tape, a place of it, the state given to the call and the lengths of the object buffer and of
/// the colour buffer lent to it.
#[derive(Clone, Debug, PartialEq, Eq)]
pub struct TapeCase {
    pub state: State,
    pub length: u8,
    pub colour_length: u8,
    pub place: u64,
    pub tape: Vec<u8>,
}

impl TapeCase {
    /// The call on a state with two buffers of 160 bytes.
    pub fn new(state: State, tape: Vec<u8>, place: u64) -> TapeCase {
        TapeCase {
            state,
            length: COLUMNS as u8,
            colour_length: COLUMNS as u8,
            place,
            tape,
        }
    }

    /// Makes the call of the record with this number.
    pub fn play(&self, number: usize) -> Played<TapeAnswer> {
        let lengths = [self.length, self.colour_length];
        Played::new(lengths, number, |buffer, colours| {
            play_line(&self.state, &self.tape, self.place, buffer, colours)
        })
    }
}

#[cfg(test)]
mod tests {
    use super::*;

    #[test]
    fn waits_are_the_clocks_between_writes_and_clock_1000_is_not_reached() {
        let write = ListedWrite::new(0, 0x0E, 1).write;
        for (first, clocks) in [(249, [249, 499, 749, 999]), (250, [250, 500, 750, 0])] {
            let mut writes = [WaitedWrite { wait: 249, write }; WALK_WRITES];
            writes[0].wait = first;
            let state = State::START;
            let by_clock = Walk { state, writes }.writes_by_clock();
            for (n, given) in by_clock.into_iter().enumerate() {
                assert_eq!(given.is_some(), n > 0 && clocks.contains(&n));
            }
        }
    }
}
