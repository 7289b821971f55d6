//! The records of the case file, written and read: one byte for the kind, the 69 bytes of the
//! state, and what a case of that kind has beside it.

use crate::cases::case::{Call, Case, LineCase, RunCase, Single, TapeCase, WaitedWrite, Walk};
use crate::cases::case::{RUN_CALLS, WALK_WRITES};
use crate::cases::state_fields::{from_bytes, to_bytes};
use crate::model::clock::RegisterWrite;
use crate::model::write_list::records;
use crate::reports::failure::Failure;
use std::array;
use std::iter;

/// The names of the kinds, each at its number.
pub const KINDS: [&str; 5] = ["clock", "walk", "line", "run", "tape"];

impl Case {
    /// The number of the case's kind.
    pub fn kind(&self) -> usize {
        match self {
            Case::Clock(_) => 0,
            Case::Walk(_) => 1,
            Case::Line(_) => 2,
            Case::Run(_) => 3,
            Case::Tape(_) => 4,
        }
    }

    /// The case's record.
    pub fn write(&self) -> Vec<u8> {
        let (state, rest) = match self {
            Case::Clock(Single { state, write }) => {
                let write = write.map(|write| [1, write.address, write.value, 0]);
                (state, write.unwrap_or([0; 4]).to_vec())
            }
            Case::Walk(Walk { state, writes }) => {
                let bytes = |w: &WaitedWrite| [w.wait, w.write.address, w.write.value];
                let writes: Vec<u8> = writes.iter().flat_map(bytes).collect();
                (state, [vec![0; 4], writes].concat())
            }
            Case::Line(LineCase { state, call }) => (state, call_bytes(call)),
            Case::Run(RunCase { state, calls }) => {
                let calls: Vec<u8> = calls.iter().flat_map(call_bytes).collect();
                (state, [vec![0; 4], calls].concat())
            }
            Case::Tape(case) => {
                let place = case.place.to_be_bytes();
                let lengths = [case.length, case.colour_length];
                let rest = [&lengths, &place[..], &list_bytes(&case.tape)].concat();
                (&case.state, rest)
            }
        };
        [&[self.kind() as u8], &to_bytes(state)[..], &rest].concat()
    }

    /// The case of the record that the file begins with, which is taken off it; none if the record
    /// is cut or its kind unknown.
    pub fn read(file: &mut &[u8]) -> Option<Case> {
        let [kind] = take(file)?;
        let state = from_bytes(&take(file)?);
        Some(match kind {
            0 => {
                let [has, address, value, _] = take(file)?;
                let write = (has != 0).then(|| RegisterWrite { address, value });
                Case::Clock(Single { state, write })
            }
            1 => {
                take::<4>(file)?;
                let listed = records(&take::<{ 3 * WALK_WRITES }>(file)?);
                let writes = array::from_fn(|n| WaitedWrite {
                    wait: listed[n].clock,
                    write: listed[n].write,
                });
                Case::Walk(Walk { state, writes })
            }
            2 => {
                let call = read_call(file)?;
                Case::Line(LineCase { state, call })
            }
            3 => {
                take::<4>(file)?;
                let calls = (0..RUN_CALLS).map(|_| read_call(file));
                let calls = calls.collect::<Option<Vec<Call>>>()?;
                Case::Run(RunCase { state, calls })
            }
            4 => {
                let [length, colour_length] = take(file)?;
                Case::Tape(TapeCase {
                    state,
                    length,
                    colour_length,
                    place: u64::from_be_bytes(take(file)?),
                    tape: read_list(file)?,
                })
            }
            _ => return None,
        })
    }
}

/// A line call: the lengths of the object buffer and of the colour buffer, then the list.
fn call_bytes(call: &Call) -> Vec<u8> {
    let lengths = vec![call.length, call.colour_length];
    [lengths, list_bytes(&call.list)].concat()
}

/// The line call that the file begins with, which is taken off it; none if it is cut.
fn read_call(file: &mut &[u8]) -> Option<Call> {
    let [length, colour_length] = take(file)?;
    let list = read_list(file)?;
    Some(Call {
        length,
        colour_length,
        list,
    })
}

/// A write list or a tape, at most 65,535 bytes: its length in two bytes, the higher first, then
/// its bytes.
fn list_bytes(list: &[u8]) -> Vec<u8> {
    [&(list.len() as u16).to_be_bytes()[..], list].concat()
}

/// The write list or tape that the file begins with, which is taken off it; none if it is cut.
fn read_list(file: &mut &[u8]) -> Option<Vec<u8>> {
    let length = u16::from_be_bytes(take(file)?);
    let list = file.get(..usize::from(length))?;
    *file = &file[list.len()..];
    Some(list.to_vec())
}

/// The file's next bytes, which are taken off it; none if there are fewer.
fn take<const N: usize>(file: &mut &[u8]) -> Option<[u8; N]> {
    let bytes = file.get(..N)?;
    *file = &file[N..];
    bytes.try_into().ok()
}

/// The cases of a case file one after another; a record that is cut or of an unknown kind is
/// named, and ends them.
pub fn cases_of(file: &[u8]) -> impl Iterator<Item = Result<Case, Failure>> + '_ {
    let mut rest = file;
    let mut number = 0;
    iter::from_fn(move || {
        if rest.is_empty() {
            return None;
        }
        let case = Case::read(&mut rest);
        if case.is_none() {
            rest = &[];
        }
        let text = format!("record {} is cut or of an unknown kind\n", number);
        number += 1;
        Some(case.ok_or(Failure::Named(text)))
    })
}

#[cfg(test)]
mod tests {
    use super::*;
    use crate::cases::chip_cases::generate;
    use crate::cases::state_fields::LENGTH;
    use crate::model::state::State;
    use crate::model::write_list::ListedWrite;

    #[test]
    fn the_reader_gives_back_every_case_that_the_writer_wrote() {
        let cases = generate();
        let file: Vec<u8> = cases.iter().flat_map(Case::write).collect();
        let read: Result<Vec<Case>, Failure> = cases_of(&file).collect();
        assert!(read == Ok(cases));
    }

    #[test]
    fn records_are_laid_out_as_the_readme_says() {
        let state = State::START;
        let write = Some(ListedWrite::new(0, 0x0E, 7).write);
        let call = Call {
            length: 255,
            colour_length: 161,
            list: vec![5; 300],
        };
        let list = [&[255, 161, 1, 44], &[5; 300][..]].concat();
        let mut tape = TapeCase::new(state, vec![1, 0, 0], 0x0102_0304_0506_07FE);
        tape.colour_length = 7;
        let bytes = vec![160, 7, 1, 2, 3, 4, 5, 6, 7, 0xFE, 0, 3, 1, 0, 0];
        let waited = ListedWrite::new(9, 0x0E, 7);
        let writes = [WaitedWrite {
            wait: waited.clock,
            write: waited.write,
        }; WALK_WRITES];
        let calls = vec![call.clone(); RUN_CALLS];
        for (case, after_the_state) in [
            (Case::Clock(Single { state, write }), vec![1, 0x0E, 7, 0]),
            (Case::Clock(Single { state, write: None }), vec![0; 4]),
            (
                Case::Walk(Walk { state, writes }),
                [vec![0; 4], [9, 0x0E, 7].repeat(WALK_WRITES)].concat(),
            ),
            (Case::Line(LineCase { state, call }), list.clone()),
            (
                Case::Run(RunCase { state, calls }),
                [vec![0; 4], list.repeat(RUN_CALLS)].concat(),
            ),
            (Case::Tape(tape), bytes),
        ] {
            assert_eq!(case.write()[1 + LENGTH..], after_the_state);
        }
    }

    #[test]
    fn a_cut_record_and_an_unknown_kind_are_named_and_end_the_file() {
        let run = Case::Run(RunCase::of_lines(State::START, &[])).write();
        let text = "record 1 is cut or of an unknown kind\n";
        let unknown = [&[KINDS.len() as u8], &run[1..]].concat();
        for second in [&run[..run.len() - 1], &run[..1], &unknown] {
            let file = [&run[..], second].concat();
            let after: Vec<Result<Case, Failure>> = cases_of(&file).skip(1).collect();
            assert_eq!(after, [Err(Failure::Named(text.to_string()))]);
        }
    }
}
