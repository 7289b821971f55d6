//! The fact of request Three on a case: a reflected player is lit exactly as an unreflected one with
//! the mirrored graphic. The case is played, and for each player its counterpart: the same with the
//! player's reflection the other way round and its graphics mirrored, in the state and in every write.
//! On each clock so one of the two is reflected; both must show the same.

use crate::cases::case::{
    Call, Case, LineCase, Played, RunCase, Single, TapeCase, WaitedWrite, Walk,
};
use crate::model::clock::{Answer, RegisterWrite};
use crate::model::first_lit::shows;
use crate::model::line::LineAnswer;
use crate::model::line_faults::COLUMNS;
use crate::model::lit::graphic;
use crate::model::mirror::mirrored;
use crate::model::registers::{register_at, Register, Registers};
use crate::model::replay::TapeAnswer;
use crate::model::state::State;
use crate::model::tape::{read, stretch, Reading};
use crate::model::write_list::{writes_by_clock, CLOCKS};

/// The state with a player's reflection the other way round and its graphics mirrored.
fn state_counterpart(state: &State, player: usize) -> State {
    let mut state = *state;
    let registers = &mut state.registers;
    registers.refp[player] = !registers.refp[player];
    registers.grp_new[player] = mirrored(registers.grp_new[player]);
    registers.grp_old[player] = mirrored(registers.grp_old[player]);
    state
}

/// The write to the same address, of the value that turns a player's reflection round or mirrors its
/// graphic.
fn write_counterpart(write: RegisterWrite, player: usize) -> RegisterWrite {
    let value = match register_at(write.address) {
        Some(Register::Refp(n)) if n == player => write.value ^ 0b0000_1000,
        Some(Register::Grp(n)) if n == player => mirrored(write.value),
        _ => write.value,
    };
    RegisterWrite { value, ..write }
}

/// The list with the counterparts of its writes; what is left over after its whole records stays.
fn list_counterpart(list: &[u8], player: usize) -> Vec<u8> {
    let mut list = list.to_vec();
    for record in list.chunks_exact_mut(3) {
        let (address, value) = (record[1], record[2]);
        record[2] = write_counterpart(RegisterWrite { address, value }, player).value;
    }
    list
}

/// The call with the counterpart of its list.
fn call_counterpart(call: &Call, player: usize) -> Call {
    Call {
        list: list_counterpart(&call.list, player),
        ..*call
    }
}

/// The tape with the counterpart of the list that reading finds at a place.
fn tape_counterpart(tape: &[u8], place: u64, player: usize) -> Vec<u8> {
    let mut other = tape.to_vec();
    if let Ok(Reading::Line { start, end }) = read(tape, place) {
        other[start..end].copy_from_slice(&list_counterpart(&tape[start..end], player));
    }
    other
}

/// The counterpart of a case for a player.
fn counterpart(case: &Case, player: usize) -> Case {
    let state_of = |state| state_counterpart(state, player);
    let write_of = |write| write_counterpart(write, player);
    let call_of = |call| call_counterpart(call, player);
    match case {
        Case::Clock(single) => Case::Clock(Single {
            state: state_of(&single.state),
            write: single.write.map(write_of),
        }),
        Case::Walk(walk) => Case::Walk(Walk {
            state: state_of(&walk.state),
            writes: walk.writes.map(|waited| WaitedWrite {
                write: write_of(waited.write),
                ..waited
            }),
        }),
        Case::Line(line) => Case::Line(LineCase {
            state: state_of(&line.state),
            call: call_of(&line.call),
        }),
        Case::Run(run) => Case::Run(RunCase {
            state: state_of(&run.state),
            calls: run.calls.iter().map(call_of).collect(),
        }),
        Case::Tape(case) => Case::Tape(TapeCase {
            state: state_of(&case.state),
            tape: tape_counterpart(&case.tape, case.place, player),
            ..*case
        }),
    }
}

/// What a clock or a call answers: number and record, the next place of a tape call, the answer bytes
/// and colours, and the state; and, only if it was accepted, the registers that each byte was shown with.
#[derive(Clone, Debug, PartialEq, Eq)]
struct Answered {
    number: u8,
    record: usize,
    place: u64,
    bytes: Vec<u8>,
    colours: Vec<u8>,
    state: State,
    registers: Vec<Registers>,
}

impl Answered {
    /// The answer of a clock.
    fn of_clock(answer: Answer) -> Answered {
        Answered {
            number: answer.number,
            record: answer.record,
            place: 0,
            bytes: vec![answer.byte],
            colours: vec![answer.colour],
            state: answer.state,
            registers: match answer.number {
                0 => vec![answer.state.registers],
                _ => vec![],
            },
        }
    }

    /// The answer of a line call with a list on a state.
    fn of_call(given: &State, list: &[u8], played: Played) -> Answered {
        let answer = played.answer;
        let registers = match answer.number {
            0 => registers_by_column(&given.registers, list),
            _ => vec![],
        };
        Answered {
            number: answer.number,
            record: answer.record,
            place: 0,
            bytes: played.buffer,
            colours: played.colours,
            state: answer.state,
            registers,
        }
    }

    /// The answer of a tape call: that of the line call that it makes, with the next place. At the
    /// tape's end there is no such call.
    fn of_tape(case: &TapeCase, played: Played<TapeAnswer>) -> Answered {
        let TapeAnswer {
            number,
            record,
            place,
            state,
        } = played.answer;
        let line = Played {
            answer: LineAnswer {
                number,
                record,
                state,
            },
            buffer: played.buffer,
            colours: played.colours,
        };
        let mut answered = Answered::of_call(&case.state, stretch(&case.tape, case.place), line);
        answered.place = place;
        if place == 0 {
            answered.registers.clear();
        }
        answered
    }

    /// Whether the clock or call was accepted; at a tape's end there is none.
    fn is_accepted(&self) -> bool {
        !self.registers.is_empty()
    }
}

/// The registers at each column of an accepted line: the given ones with the writes up to its clock.
fn registers_by_column(given: &Registers, list: &[u8]) -> Vec<Registers> {
    let mut registers = *given;
    let by_clock = writes_by_clock(list).map(|write| {
        let known = write.and_then(|write| Some((register_at(write.address)?, write.value)));
        if let Some((register, value)) = known {
            registers.set(register, value);
        }
        registers
    });
    by_clock[CLOCKS - COLUMNS..].to_vec()
}

/// The answers of a case's clocks or calls, one after another; the number is that of its record.
fn answers(number: usize, case: &Case) -> Vec<Answered> {
    match case {
        Case::Clock(single) => vec![Answered::of_clock(single.play())],
        Case::Walk(walk) => walk.play().into_iter().map(Answered::of_clock).collect(),
        Case::Line(line) => {
            let played = line.play(number);
            vec![Answered::of_call(&line.state, &line.call.list, played)]
        }
        Case::Run(run) => {
            let mut given = run.state;
            let calls = run.chain().into_iter().zip(run.play(number));
            let answers = calls.map(|(call, played)| {
                let answered = Answered::of_call(&given, &call.list, played);
                given = answered.state;
                answered
            });
            answers.collect()
        }
        Case::Tape(tape) => vec![Answered::of_tape(tape, tape.play(number))],
    }
}

/// In how many columns of an accepted clock or call a player is lit that is reflected in it and not in
/// the counterpart, whose graphic is another: the new one, or the old with VDELP.
fn columns_reflected(one: &Answered, other: &Answered, player: usize, old: bool) -> usize {
    let registers = one.registers.iter().zip(&other.registers);
    let columns = registers.zip(&one.bytes).filter(|((one, other), byte)| {
        shows(**byte, player as u8)
            && one.refp[player]
            && !other.refp[player]
            && one.vdelp[player] == old
            && graphic(one, player) != graphic(other, player)
    });
    columns.count()
}

/// A claim: whether it holds of an answer and of that of the counterpart for a player.
type Claim = fn(&Answered, &Answered, usize) -> bool;

/// The claims with their names: all is equal but the player's reflection and graphics in the state,
/// which are again the counterparts of each other.
const CLAIMS: [(&str, Claim); 5] = [
    ("refusal or place", |one, other, _| {
        (one.number, one.record, one.place) == (other.number, other.record, other.place)
    }),
    ("object bytes", |one, other, _| one.bytes == other.bytes),
    ("colours", |one, other, _| one.colours == other.colours),
    ("latches", |one, other, _| {
        one.state.latches == other.state.latches
    }),
    ("state", |one, other, player| {
        let expected = State {
            latches: other.state.latches,
            ..state_counterpart(&one.state, player)
        };
        other.state == expected
    }),
];

/// A case that was played, with its record's number and its answers.
pub struct PlayedCase<'a> {
    number: usize,
    case: &'a Case,
    answers: Vec<Answered>,
}

/// What was found of a player in a case: how many clocks and line calls were accepted, in how many of
/// their columns it is lit, reflected, by a graphic that is not its own mirror, the new one and the old
/// one, and the claims that are false.
#[derive(Clone, Debug, Default, PartialEq, Eq)]
pub struct Finding {
    pub accepted: usize,
    pub by_new: usize,
    pub by_old: usize,
    pub false_claims: Vec<&'static str>,
}

impl PlayedCase<'_> {
    /// Plays the case of the record with this number.
    pub fn new(number: usize, case: &Case) -> PlayedCase<'_> {
        PlayedCase {
            number,
            case,
            answers: answers(number, case),
        }
    }

    /// What is found of a player.
    pub fn find(&self, player: usize) -> Finding {
        let others = answers(self.number, &counterpart(self.case, player));
        self.compare(&others, player)
    }

    /// What is found of a player by the answers of the counterpart.
    fn compare(&self, others: &[Answered], player: usize) -> Finding {
        let both = || self.answers.iter().zip(others);
        let columns = |old| {
            let columns = both().map(|(one, other)| columns_reflected(one, other, player, old));
            columns.sum()
        };
        let is_false = |&(name, claim): &(&'static str, Claim)| {
            let holds = both().all(|(one, other)| claim(one, other, player));
            Some(name).filter(|_| !holds)
        };
        Finding {
            accepted: self.answers.iter().filter(|one| one.is_accepted()).count(),
            by_new: columns(false),
            by_old: columns(true),
            false_claims: CLAIMS.iter().filter_map(is_false).collect(),
        }
    }
}

#[cfg(test)]
mod tests {
    use super::*;
    use crate::cases::build_lists::{list_of, records_of};
    use crate::cases::build_tapes::tape_of;
    use crate::cases::case::WALK_WRITES;
    use crate::model::object::{P0, P1};
    use crate::model::write_list::ListedWrite;

    /// A graphic and its mirror.
    const GRAPHIC: u8 = 0b1101_0000;
    const MIRROR: u8 = 0b0000_1011;

    /// A state whose next line shows each player's graphic, the new one 1101 0000 and the old one its
    /// mirror, in columns 37 to 44 of P0 and 47 to 54 of P1; the playfield is lit in columns 32 to 47.
    fn shown(refp: [bool; 2], vdelp: [bool; 2]) -> State {
        let mut state = State::START;
        state.objects[P0].position = 127;
        state.objects[P1].position = 117;
        let registers = &mut state.registers;
        registers.grp_new = [GRAPHIC; 2];
        registers.grp_old = [MIRROR; 2];
        (registers.refp, registers.vdelp) = (refp, vdelp);
        registers.pf1 = 0b0000_1111;
        registers.colup = [0x42, 0x84];
        state
    }

    /// The line call with these writes on a state.
    fn line(state: State, writes: &[(u8, u8, u8)]) -> Case {
        let call = Call::with(&records_of(writes));
        Case::Line(LineCase { state, call })
    }

    /// A finding without false claims.
    fn found(accepted: usize, by_new: usize, by_old: usize) -> Finding {
        Finding {
            accepted,
            by_new,
            by_old,
            false_claims: vec![],
        }
    }

    /// What is found of each player in a case.
    fn findings(case: &Case) -> [Finding; 2] {
        let played = PlayedCase::new(0, case);
        [P0, P1].map(|player| played.find(player))
    }

    #[test]
    fn counterparts_turn_the_reflection_and_the_graphics_of_their_player_alone() {
        let given = shown([false, true], [true, false]);
        let mut expected = given;
        expected.registers.refp = [false, false];
        expected.registers.grp_new[1] = MIRROR;
        expected.registers.grp_old[1] = GRAPHIC;
        assert_eq!(state_counterpart(&given, P1), expected);
        assert_eq!(state_counterpart(&expected, P1), given);
        let lists = [
            (P0, [(0x0B, 0xF7, 0xFF), (0x1B, GRAPHIC, MIRROR)]),
            (P1, [(0x0C, 0x08, 0x00), (0x1C, 0x01, 0x80)]),
        ];
        for (player, changed) in lists {
            let mut list: Vec<u8> = (0..228).flat_map(|n| [n, n, 0x15]).collect();
            let mut expected = list.clone();
            for (address, value, other) in changed {
                list.extend([255, address, value]);
                expected.extend([255, address, other]);
                let own = 3 * usize::from(address) + 2;
                expected[own] = if address < 0x10 { 0x1D } else { 0xA8 };
            }
            list.extend([9, 0x1B + player as u8]);
            expected.extend([9, 0x1B + player as u8]);
            assert_eq!(list_counterpart(&list, player), expected);
        }
    }

    #[test]
    fn the_counterpart_of_a_tape_has_that_of_the_list_at_its_place() {
        let list = vec![0x1B, 0x1B, 1];
        let other = vec![0x1B, 0x1B, 0x80];
        let tape = tape_of(&[list.clone(), list.clone()]);
        let lists = [(1, [&other, &list]), (6, [&list, &other])];
        for (place, lists) in lists {
            let expected = tape_of(&lists.map(|list| list.clone()));
            assert_eq!(tape_counterpart(&tape, place, P0), expected);
            assert_eq!(tape_counterpart(&tape, place, P1), tape);
        }
        for place in [0, 2, 11, 12] {
            assert_eq!(tape_counterpart(&tape, place, P0), tape);
        }
    }

    #[test]
    fn registers_at_a_column_have_the_writes_up_to_its_clock() {
        let writes = [(67, 0x0B, 8), (68, 0x25, 1), (100, 0x2A, 0), (227, 0x0B, 0)];
        let list = list_of(&records_of(&writes));
        let registers = registers_by_column(&Registers::START, &list);
        assert_eq!(registers.len(), 160);
        let flags = |column: usize| (registers[column].refp[P0], registers[column].vdelp[P0]);
        assert!((0..159).all(|column| flags(column) == (true, true)));
        assert_eq!(flags(159), (false, true));
        let later = list_of(&records_of(&[(69, 0x25, 1)]));
        let registers = registers_by_column(&Registers::START, &later);
        assert_eq!([0, 1].map(|x| registers[x].vdelp[P0]), [false, true]);
    }

    // Each player has three columns lit.
    #[test]
    fn columns_are_counted_by_the_graphic_of_a_reflected_player() {
        let none = found(1, 0, 0);
        let flags = [false, true].into_iter();
        for (reflected, old) in flags.flat_map(|one| [(one, false), (one, true)]) {
            let case = line(shown([reflected, false], [old, true]), &[]);
            let of_p0 = match (reflected, old) {
                (false, _) => none.clone(),
                (true, false) => found(1, 3, 0),
                (true, true) => found(1, 0, 3),
            };
            assert_eq!(findings(&case), [of_p0, none.clone()]);
        }
        // Reflected from column 41 on 1101 0000 is lit in columns 37, 38, 40, 41, 43 and 44.
        let reflected_late = line(shown([false; 2], [false; 2]), &[(109, 0x0B, 8)]);
        assert_eq!(findings(&reflected_late), [found(1, 3, 0), none.clone()]);
        let own_mirror = line(shown([true; 2], [false; 2]), &[(0, 0x1B, 0x18)]);
        assert_eq!(findings(&own_mirror), [none, found(1, 3, 0)]);
    }

    #[test]
    fn every_kind_of_case_is_checked_and_accepted_clocks_and_calls_are_counted() {
        let state = shown([true, false], [false, true]);
        let mut clock_state = State {
            h: 68 + 41,
            ..state
        };
        clock_state.drawings[P0].pixel = 4;
        let write = Some(RegisterWrite {
            address: 0x0C,
            value: 8,
        });
        let single = Single {
            state: clock_state,
            write,
        };
        let wait = 250;
        let waited = write.map(|write| WaitedWrite { wait, write }).unwrap();
        let walk = Walk {
            state,
            writes: [waited; WALK_WRITES],
        };
        let refused = [(5, 0x2A, 0), (5, 0x2A, 0)].map(|w| ListedWrite::new(w.0, w.1, w.2));
        let run = RunCase::of_lines(state, &[refused.to_vec()]);
        let tape = tape_of(&[vec![], vec![0, 0x0C, 8]]);
        let on_tape = |place| Case::Tape(TapeCase::new(state, tape.clone(), place));
        // Clocks 0 to 999 of a walk are four lines and 88 clocks; REFP1 is written on clock 250.
        let cases = [
            (Case::Clock(single), [found(1, 1, 0), found(1, 0, 0)]),
            (Case::Walk(walk), [found(1000, 12, 0), found(1000, 0, 9)]),
            (
                line(state, &[(0, 0x00, 0)]),
                [found(0, 0, 0), found(0, 0, 0)],
            ),
            (Case::Run(run), [found(23, 69, 0), found(23, 0, 0)]),
            (on_tape(3), [found(1, 3, 0), found(1, 0, 3)]),
            (on_tape(8), [found(0, 0, 0), found(0, 0, 0)]),
            (on_tape(9), [found(0, 0, 0), found(0, 0, 0)]),
        ];
        for (case, expected) in cases {
            assert_eq!(findings(&case), expected);
        }
    }

    #[test]
    fn false_claims_are_named() {
        let case = line(shown([true, false], [false; 2]), &[(0, 0x2C, 0)]);
        let played = PlayedCase::new(0, &case);
        let good = answers(0, &counterpart(&case, P0));
        assert_eq!(played.compare(&good, P0), found(1, 3, 0));
        let changes: [(&str, fn(&mut Answered)); 9] = [
            ("refusal or place", |other| other.number = 7),
            ("refusal or place", |other| other.record = 1),
            ("refusal or place", |other| other.place = 1),
            ("object bytes", |other| other.bytes[159] ^= 32),
            ("colours", |other| other.colours[0] ^= 2),
            ("latches", |other| other.state.latches[14] ^= true),
            ("state", |other| other.state.h = 1),
            ("state", |other| other.state.registers.grp_old[P0] ^= 1),
            ("state", |other| other.state.registers.refp[P0] ^= true),
        ];
        for (claim, change) in changes {
            let mut others = good.clone();
            change(&mut others[0]);
            assert_eq!(played.compare(&others, P0).false_claims, [claim]);
        }
    }

    // A player that is not mirrored, or not in its old graphic, or not turned round, is no counterpart:
    // it shows something else.
    #[test]
    fn a_player_that_shows_something_else_makes_claims_false() {
        let shows_else = ["object bytes", "colours", "latches", "state"];
        let changes: [(bool, &[&str], fn(&mut Registers)); 4] = [
            (false, &shows_else, |r| r.grp_new[P0] = GRAPHIC),
            (false, &["state"], |r| r.grp_old[P0] = MIRROR),
            (true, &shows_else, |r| r.grp_old[P0] = MIRROR),
            (true, &shows_else, |r| r.refp[P0] = true),
        ];
        for (old, claims, change) in changes {
            // The playfield is lit in columns 41 to 43, where only one way round the player is too.
            let mut state = shown([true, false], [old, false]);
            state.registers.pf1 = 0;
            let writes = [(109, 0x0E, 0b0000_0010)];
            let mut other = state_counterpart(&state, P0);
            change(&mut other.registers);
            let others = answers(0, &line(other, &writes));
            let case = line(state, &writes);
            let played = PlayedCase::new(0, &case);
            assert_eq!(played.compare(&others, P0).false_claims, claims);
        }
    }
}
