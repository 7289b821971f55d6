//! The chip report: a row for each record of a case file, with the answers, or the digest of the
//! answers, that the chip gives for its case.

use crate::cases::case::{Case, LineCase, RunCase, Single, TapeCase, Walk};
use crate::cases::record::{cases_of, KINDS};
use crate::cases::state_fields::to_bytes;
use crate::model::first_lit::first_lit;
use crate::model::input::bytes_of_input;
use crate::model::latches::read_out;
use crate::model::state::State;
use crate::model::tape::{read, stretch, Reading};
use crate::reports::digest::Digest;
use crate::reports::failure::Failure;
use crate::reports::texts::answer_text;
use std::io::{Read, Write};

/// The objects whose first lit column is printed; the last two are none.
const OBJECTS: [u8; 8] = [0, 1, 2, 3, 4, 5, 6, 255];

/// Writes a row for each record of the case file on the input. Fails at a record that cannot be
/// read, and ends early with the first write error.
pub fn write(input: &mut dyn Read, out: &mut dyn Write) -> Result<(), Failure> {
    let file = bytes_of_input(input, usize::MAX);
    for (number, case) in cases_of(&file).enumerate() {
        writeln!(out, "{}", row(number, &case?))?;
    }
    Ok(())
}

/// The row of the record with this number, without its newline.
fn row(number: usize, case: &Case) -> String {
    let fields = match case {
        Case::Clock(single) => clock_fields(single),
        Case::Walk(walk) => walk_digest(walk).to_string(),
        Case::Line(line) => line_fields(number, line),
        Case::Run(run) => run_digest(number, run).to_string(),
        Case::Tape(tape) => tape_fields(number, tape),
    };
    format!("{} {} {}", KINDS[case.kind()], number, fields)
}

/// The digest of a state.
fn state_digest(state: &State) -> Digest {
    Digest::of(&to_bytes(state))
}

/// The read-out of a state: number (0: accepted), record, and eight bytes, zeros if refused.
fn read_out_of(state: &State) -> (u8, usize, [u8; 8]) {
    match read_out(state) {
        Ok(bytes) => (0, 0, bytes),
        Err(refusal) => (refusal.number, refusal.record, [0; 8]),
    }
}

/// A single clock: its answer and the read-out after it.
fn clock_fields(single: &Single) -> String {
    let answer = single.play();
    let (number, record) = (answer.number, answer.record);
    let (byte, colour) = (answer.byte, answer.colour);
    let state = state_digest(&answer.state);
    let (refused, at, bytes) = read_out_of(&answer.state);
    let bytes = u64::from_be_bytes(bytes);
    format!("{number} {record} {byte} {colour} {state} {refused} {at} {bytes:016x}")
}

/// A walk: for each clock number, record, answer byte, colour, state, and number, record and bytes of
/// the read-out. A record's index, 0 at a single clock, is one byte.
fn walk_digest(walk: &Walk) -> Digest {
    let mut digest = Digest::new();
    for answer in walk.play() {
        let (number, record, bytes) = read_out_of(&answer.state);
        digest.add(&[answer.number, answer.record as u8]);
        digest.add(&[answer.byte, answer.colour]);
        digest.add(&to_bytes(&answer.state));
        digest.add(&[number, record as u8]);
        digest.add(&bytes);
    }
    digest
}

/// A line call: its answer, its object bytes and colour bytes, and the first lit columns in the object
/// bytes.
fn line_fields(number: usize, case: &LineCase) -> String {
    let played = case.play(number);
    let columns = OBJECTS.map(|object| {
        let column = first_lit(&played.buffer, object);
        answer_text(column.map(|column| column.map_or("-".into(), |column| column.to_string())))
    });
    let (number, record) = (played.answer.number, played.answer.record);
    let state = state_digest(&played.answer.state);
    let [bytes, colours] = [&played.buffer, &played.colours].map(|bytes| Digest::of(bytes));
    let columns = columns.join(" ");
    format!("{number} {record} {state} {bytes} {colours} {columns}")
}

/// A run: for each call number, record, state, object buffer and colour buffer. A record's index, at most 227, is one
/// byte.
fn run_digest(number: usize, run: &RunCase) -> Digest {
    let mut digest = Digest::new();
    for played in run.play(number) {
        digest.add(&[played.answer.number, played.answer.record as u8]);
        digest.add(&to_bytes(&played.answer.state));
        digest.add(&played.buffer);
        digest.add(&played.colours);
    }
    digest
}

/// A tape call: what reading finds at its place, with start and end, both 0 where the tape has
/// ended or reading is refused; the stretch; and the answer of playing the line there.
fn tape_fields(number: usize, case: &TapeCase) -> String {
    let (refused, start, end) = match read(&case.tape, case.place) {
        Ok(Reading::Line { start, end }) => (0, start, end),
        Ok(Reading::Ended) => (0, 0, 0),
        Err(refusal) => (refusal.number, 0, 0),
    };
    let stretch = Digest::of(stretch(&case.tape, case.place));
    let played = case.play(number);
    let answer = played.answer;
    let (number, record, place) = (answer.number, answer.record, answer.place);
    let state = state_digest(&answer.state);
    let [bytes, colours] = [&played.buffer, &played.colours].map(|bytes| Digest::of(bytes));
    let reading = format!("{refused} {start} {end} {stretch}");
    format!("{reading} {number} {record} {place} {state} {bytes} {colours}")
}

#[cfg(test)]
mod tests {
    use super::*;
    use crate::cases::bench::PRINTED_TAPE;
    use crate::cases::build_lists::records_of;
    use crate::cases::case::{Call, WaitedWrite, WALK_WRITES};
    use crate::tests::playing::to;

    /// A single clock without a write on the start state with all latches set.
    const ALL_LATCHED: Single = Single {
        state: State {
            latches: [true; 15],
            ..State::START
        },
        write: None,
    };

    /// The fields of the two objects that are none.
    const NO_OBJECTS: &str = "refused(10,0) refused(10,0)";

    /// The digests of the two buffers that record 0 lends.
    fn lent() -> [Digest; 2] {
        let objects: Vec<u8> = (0..160).collect();
        let colours: Vec<u8> = (100..=255).chain(0..4).collect();
        [Digest::of(&objects), Digest::of(&colours)]
    }

    /// The start state after a line in which each object passed a start: age 0 at position 0.
    fn after_a_line() -> State {
        let mut state = State::START;
        for object in &mut state.objects {
            object.age = 0;
        }
        state
    }

    #[test]
    fn a_clock_is_its_answer_and_the_read_out() {
        let after = state_digest(&State {
            h: 1,
            ..ALL_LATCHED.state
        });
        let expected = format!("clock 3 0 0 128 0 {after} 0 0 c0c0c0c0c0c080c0");
        assert_eq!(row(3, &Case::Clock(ALL_LATCHED)), expected);
    }

    #[test]
    fn a_clock_gives_its_colour() {
        let mut state = State {
            h: 100,
            ..State::START
        };
        state.registers.colubk = 0x9F;
        let single = Single { state, write: None };
        let after = state_digest(&single.play().state);
        let expected = format!("clock 0 0 0 0 158 {after} 0 0 0000000000000000");
        assert_eq!(row(0, &Case::Clock(single)), expected);
    }

    #[test]
    fn a_walk_is_the_digest_of_its_1000_clocks() {
        let mut state = State::START;
        state.registers.pf0 = 16;
        let write = to(0x2A, 0).unwrap();
        let writes = [WaitedWrite { wait: 0, write }; WALK_WRITES];
        let mut digest = Digest::new();
        for _ in 0..1000 {
            digest.add(&[1, 0, 0, 0]);
            digest.add(&to_bytes(&state));
            digest.add(&[1, 0, 0, 0, 0, 0, 0, 0, 0, 0]);
        }
        let walk = Case::Walk(Walk { state, writes });
        assert_eq!(row(9, &walk), format!("walk 9 {digest}"));
    }

    #[test]
    fn a_line_is_its_answer_its_bytes_and_the_first_lit_columns() {
        let row_of = |writes| {
            let call = Call::with(&records_of(writes));
            let state = State::START;
            row(0, &Case::Line(LineCase { state, call }))
        };
        let mut after = after_a_line();
        after.registers.pf1 = 255;
        after.registers.colupf = 0x47;
        let (mut bytes, mut colours) = ([0; 160], [0; 160]);
        for lit in [32..48, 96..128] {
            bytes[lit.clone()].fill(32);
            colours[lit].fill(0x46);
        }
        let [bytes, colours] = [Digest::of(&bytes), Digest::of(&colours)];
        let state = state_digest(&after);
        let expected = format!("line 0 0 0 {state} {bytes} {colours} - - - - - 32 {NO_OBJECTS}");
        assert_eq!(row_of(&[(9, 0x08, 0x47), (100, 0x0E, 255)]), expected);
        let (state, [bytes, colours]) = (state_digest(&State::START), lent());
        let expected = format!("line 0 7 1 {state} {bytes} {colours} 1 2 4 8 16 32 {NO_OBJECTS}");
        assert_eq!(row_of(&[(8, 0x2A, 0), (9, 0, 0)]), expected);
    }

    #[test]
    fn a_run_is_the_digest_of_its_24_calls_in_turn() {
        let lines = [vec![], records_of(&[(5, 0x2A, 0), (5, 0x2A, 0)])];
        let mut run = RunCase::of_lines(State::START, &lines);
        run.calls[0].length = 3;
        run.calls[0].colour_length = 2;
        run.calls[2].colour_length = 3;
        let rising = |first: u8, length| -> Vec<u8> {
            let bytes = (0..length).map(|n| first.wrapping_add(n));
            bytes.collect()
        };
        let mut digest = Digest::new();
        for call in 0..24 {
            let (number, record, bytes, colours) = match call {
                2 => (3, 0, rising(72, 3), rising(172, 2)),
                3 => (6, 1, rising(73, 160), rising(173, 160)),
                4 => (11, 0, rising(74, 160), rising(174, 3)),
                _ => (0, 0, vec![0; 160], vec![0; 160]),
            };
            digest.add(&[number, record]);
            digest.add(&to_bytes(&after_a_line()));
            digest.add(&bytes);
            digest.add(&colours);
        }
        assert_eq!(row(70, &Case::Run(run)), format!("run 70 {digest}"));
    }

    #[test]
    fn a_tape_is_its_reading_and_the_answer_of_playing() {
        let [given, after] = [state_digest(&State::START), state_digest(&after_a_line())];
        let (dark, [lent, colours]) = (Digest::of(&[0; 160]), lent());
        for (place, expected) in [
            (9, format!("0 11 11 00000000 0 0 11 {after} {dark} {dark}")),
            (21, format!("0 0 0 00000000 0 0 0 {given} {lent} {colours}")),
            (2, format!("4 0 0 00000000 4 0 0 {given} {lent} {colours}")),
        ] {
            let case = TapeCase::new(State::START, PRINTED_TAPE.to_vec(), place);
            assert_eq!(row(0, &Case::Tape(case)), format!("tape 0 {expected}"));
        }
        let mut case = TapeCase::new(State::START, PRINTED_TAPE.to_vec(), 9);
        case.colour_length = 1;
        let colours = Digest::of(&[100]);
        let expected = format!("tape 0 0 11 11 00000000 11 0 0 {given} {lent} {colours}");
        assert_eq!(row(0, &Case::Tape(case)), expected);
    }

    #[test]
    fn the_rows_before_a_cut_record_are_written() {
        let mut file = Case::Clock(ALL_LATCHED).write().repeat(2);
        file.pop();
        let mut out = Vec::new();
        let text = "record 1 is cut or of an unknown kind\n".to_string();
        assert_eq!(write(&mut &file[..], &mut out), Err(Failure::Named(text)));
        assert_eq!(out, (row(0, &Case::Clock(ALL_LATCHED)) + "\n").as_bytes());
    }
}
