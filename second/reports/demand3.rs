//! Demand 3 over a run of lines: for one object the premises and the sum, read from the records
//! of the accepted lines alone, and the two claims, of the position and of the picture.

use crate::cases::case::{play_chain, Call, Played, RunCase, QUIET_CALLS};
use crate::model::drawing::first_age;
use crate::model::line_faults::COLUMNS;
use crate::model::object::{size_of_copies, BL, P0, P1};
use crate::model::registers::{register_at, Register, Registers};
use crate::model::state::{State, NO_MOTION};
use crate::model::write_list::{records, ListedWrite};

/// The last clock at which a line's HMOVE may stand.
pub const LAST_HMOVE_CLOCK: u8 = 15;

/// The last clock up to which no motion register and no HMCLR may be written after HMOVE.
pub const LAST_GUARDED_CLOCK: u8 = 75;

/// The records of a line.
pub type Line = Vec<ListedWrite>;

/// The records of the calls that were accepted.
fn accepted_lines(calls: &[Call], played: &[Played]) -> Vec<Line> {
    let both = calls.iter().zip(played);
    both.filter(|(_, played)| played.answer.number == 0)
        .map(|(call, _)| records(&call.list))
        .collect()
}

/// The clocks at which a line writes a register.
pub fn clocks_of(line: &Line, register: Register) -> Vec<u8> {
    line.iter()
        .filter(|record| register_at(record.write.address) == Some(register))
        .map(|record| record.clock)
        .collect()
}

/// Whether a record writes a motion register or HMCLR.
pub fn sets_motion(record: &ListedWrite) -> bool {
    let register = register_at(record.write.address);
    matches!(register, Some(Register::Motion(_) | Register::Hmclr))
}

/// Whether a line keeps the premises of an object: it does not use its strobe, and it has no HMOVE,
/// or exactly one, at clocks 0 to 15, with no motion register and no HMCLR written after it up to
/// and including clock 75.
fn keeps_premises(line: &Line, object: usize) -> bool {
    let hmove_allowed = match clocks_of(line, Register::Hmove)[..] {
        [] => true,
        [clock] => {
            let guarded = clock + 1..=LAST_GUARDED_CLOCK;
            let late =
                |record: &ListedWrite| guarded.contains(&record.clock) && sets_motion(record);
            clock <= LAST_HMOVE_CLOCK && !line.iter().any(late)
        }
        _ => false,
    };
    hmove_allowed && clocks_of(line, Register::Strobe(object)).is_empty()
}

/// The object's half byte at each HMOVE of these lines: as last written, or cleared by HMCLR,
/// before it in them, else that of the state before them.
fn half_bytes(before: &State, lines: &[Line], object: usize) -> Vec<u8> {
    let mut half_byte = before.objects[object].motion;
    let mut at_hmoves = Vec::new();
    for record in lines.iter().flatten() {
        match register_at(record.write.address) {
            Some(Register::Motion(written)) if written == object => {
                half_byte = record.write.value >> 4;
            }
            Some(Register::Hmclr) => half_byte = 0,
            Some(Register::Hmove) => at_hmoves.push(half_byte),
            _ => {}
        }
    }
    at_hmoves
}

/// The sum of half bytes as signed motion values, 8 to 15 meaning -8 to -1.
fn signed_sum(half_bytes: &[u8]) -> i32 {
    let signed = |half_byte: i32| match half_byte {
        0..=7 => half_byte,
        _ => half_byte - 16,
    };
    half_bytes.iter().map(|&n| signed(i32::from(n))).sum()
}

/// The remainder modulo 160 that is not negative.
fn modulo_160(number: i32) -> i32 {
    number.rem_euclid(COLUMNS as i32)
}

/// The position claim: the position has risen by the sum, modulo 160.
fn position_holds(before: &State, after: &State, object: usize, sum: i32) -> bool {
    let position = |state: &State| i32::from(state.objects[object].position);
    position(after) == modulo_160(position(before) + sum)
}

/// The picture claim: the object's bit in column x of the later bytes is that in column x + sum,
/// modulo 160, of the earlier.
fn picture_holds(earlier: &[u8], later: &[u8], object: usize, sum: i32) -> bool {
    let bit = |bytes: &[u8], x: i32| bytes[x as usize] >> object & 1;
    (0..COLUMNS as i32).all(|x| bit(later, x) == bit(earlier, modulo_160(x + sum)))
}

/// The object's drawing registers.
fn drawing_registers(registers: &Registers, object: usize) -> Vec<u8> {
    let n = object % 2;
    match object {
        P0 | P1 => vec![
            registers.copies[n],
            u8::from(registers.refp[n]),
            registers.grp_new[n],
            registers.grp_old[n],
            u8::from(registers.vdelp[n]),
        ],
        BL => vec![
            registers.ctrlpf & 0b0011_0000,
            u8::from(registers.enabl_new),
            u8::from(registers.enabl_old),
            u8::from(registers.vdelbl),
        ],
        _ => vec![
            registers.copies[n],
            registers.width_codes[n],
            u8::from(registers.enam[n]),
        ],
    }
}

/// Whether a sum takes the first column of the object's main copy past column 0: that column, 4 less
/// the position for a player of size 1, 5 less it for one of size 2 or 4 and 3 less it for the others,
/// modulo 160, less the sum is not one of 0 to 159.
fn passes_column_0(before: &State, object: usize, sum: i32) -> bool {
    let first = match object {
        P0 | P1 => first_age(size_of_copies(before.registers.copies[object])),
        _ => 4,
    };
    let column = modulo_160(i32::from(first) - 1 - i32::from(before.objects[object].position));
    !(0..COLUMNS as i32).contains(&(column - sum))
}

/// A run that was played: the whole chain, and, if its first state has slot 16, its own calls
/// from that state.
pub struct PlayedRun {
    run: RunCase,
    chain: Vec<Played>,
    direct: Option<Vec<Played>>,
}

/// What was found of an object in a run that keeps its premises: the half bytes at the HMOVEs,
/// whether the picture claim was due, whether a call was refused, whether the sum passes column 0,
/// and the claims that are false.
#[derive(Clone, Debug, Default, PartialEq, Eq)]
pub struct Finding {
    pub half_bytes: Vec<u8>,
    pub picture: bool,
    pub refused: bool,
    pub past_column_0: bool,
    pub false_claims: Vec<&'static str>,
}

impl PlayedRun {
    /// Plays the run with this number.
    pub fn new(number: usize, run: &RunCase) -> PlayedRun {
        let slot_16 = run.state.slot == NO_MOTION;
        PlayedRun {
            run: run.clone(),
            chain: run.play(number),
            direct: slot_16.then(|| play_chain(&run.state, &run.calls, number)),
        }
    }

    /// The second line without writes, before the run's own calls.
    pub fn second_quiet(&self) -> &Played {
        &self.chain[QUIET_CALLS - 1]
    }

    /// The run's own calls as they were played in the chain.
    pub fn own(&self) -> &[Played] {
        &self.chain[QUIET_CALLS..self.chain.len() - QUIET_CALLS]
    }

    /// What is found of an object; none if the run does not keep its premises, or begins with a
    /// state that is bad or not at h = 0.
    pub fn find(&self, object: usize) -> Option<Finding> {
        let given = &self.run.state;
        if given.check().is_err() || given.h != 0 {
            return None;
        }
        let lines = accepted_lines(&self.run.calls, self.own());
        if !lines.iter().all(|line| keeps_premises(line, object)) {
            return None;
        }
        let (quiet, last) = (self.second_quiet(), &self.chain[self.chain.len() - 1]);
        let before = &quiet.answer.state;
        let after = state_after(before, self.own());
        let half_bytes = half_bytes(before, &lines, object);
        let sum = signed_sum(&half_bytes);
        let drawing = |state: &State| drawing_registers(&state.registers, object);
        let picture = drawing(given) == drawing(after);
        let turned = || picture_holds(&quiet.buffer, &last.buffer, object, sum);
        let claims = [
            ("position", position_holds(before, after, object, sum)),
            ("position from the first state", self.direct_holds(object)),
            ("picture", !picture || turned()),
        ];
        let is_false = |&(name, holds): &(&'static str, bool)| Some(name).filter(|_| !holds);
        Some(Finding {
            half_bytes,
            picture,
            refused: lines.len() < self.run.calls.len(),
            past_column_0: passes_column_0(before, object, sum),
            false_claims: claims.iter().filter_map(is_false).collect(),
        })
    }

    /// The position claim over the run's own calls from the first state; it holds where they are
    /// not played from it.
    fn direct_holds(&self, object: usize) -> bool {
        let given = &self.run.state;
        self.direct.as_ref().map_or(true, |direct| {
            let lines = accepted_lines(&self.run.calls, direct);
            let sum = signed_sum(&half_bytes(given, &lines, object));
            position_holds(given, state_after(given, direct), object, sum)
        })
    }
}

/// The state after calls that began with a state.
fn state_after<'a>(before: &'a State, played: &'a [Played]) -> &'a State {
    played.last().map_or(before, |played| &played.answer.state)
}

#[cfg(test)]
mod tests {
    use super::*;
    use crate::cases::build_lists::records_of;
    use crate::model::first_lit::first_lit;
    use crate::model::object::{M0, M1};

    /// The writes of a line: clock, address, value.
    type Writes<'a> = &'a [(u8, u8, u8)];

    /// Whether a line keeps the premises of missile 0.
    fn keeps(writes: Writes) -> bool {
        keeps_premises(&records_of(writes), M0)
    }

    /// A run from a state that was played: these lines, then lines without writes.
    fn played(state: State, lines: &[Writes]) -> PlayedRun {
        let lines: Vec<Line> = lines.iter().map(|line| records_of(line)).collect();
        PlayedRun::new(0, &RunCase::of_lines(state, &lines))
    }

    /// The state after a line in which missile 0 is enabled and strobed at a clock.
    fn missile_strobed_at(clock: u8) -> State {
        let call = Call::with(&records_of(&[(0, 0x1D, 2), (clock, 0x12, 0)]));
        call.play(&State::START, 0).answer.state
    }

    #[test]
    fn hmove_is_allowed_once_at_clocks_0_to_15_and_the_objects_own_strobe_never() {
        for clock in 0..228 {
            assert_eq!(keeps(&[(clock, 0x2A, 0)]), clock <= 15);
        }
        assert!(!keeps(&[(3, 0x2A, 0), (15, 0x2A, 0)]));
        assert!(!keeps(&[(3, 0x2A, 0), (200, 0x2A, 0)]));
        for (object, strobed) in (0..25).map(|n| (n / 5, n % 5)) {
            let line = records_of(&[(100, 0x10 + strobed as u8, 0)]);
            assert_eq!(keeps_premises(&line, object), object != strobed);
        }
    }

    #[test]
    fn motion_registers_and_hmclr_are_guarded_after_hmove_up_to_clock_75() {
        for address in (0x04..=0x2C).filter(|&address| register_at(address).is_some()) {
            let guarded = (0x20..=0x24).contains(&address) || address == 0x2B;
            for clock in (0..9).chain(10..228) {
                let mut line = [(9, 0x2A, 0), (clock, address, 0x70)];
                line.sort_unstable();
                if address != 0x2A && address != 0x12 {
                    assert_eq!(keeps(&line), !(guarded && (9..76).contains(&clock)));
                    assert!(keeps(&[(clock, address, 0x70)]));
                }
            }
        }
    }

    #[test]
    fn a_half_byte_is_the_one_last_written_before_the_hmove() {
        let lines = [
            records_of(&[(9, 0x2A, 0), (76, 0x22, 0x8F)]),
            records_of(&[(0, 0x2A, 0), (80, 0x22, 0x10), (81, 0x23, 0x20)]),
            records_of(&[(7, 0x22, 0x7F), (8, 0x2A, 0)]),
            records_of(&[(0, 0x2B, 0), (15, 0x2A, 0), (227, 0x22, 0xF0)]),
            records_of(&[(0, 0x2A, 0)]),
        ];
        let mut state = State::START;
        state.objects[M0].motion = 5;
        state.objects[M1].motion = 6;
        assert_eq!(half_bytes(&state, &lines, M0), [5, 8, 7, 0, 15]);
        assert_eq!(half_bytes(&state, &lines, M1), [6, 6, 2, 0, 0]);
        assert_eq!(half_bytes(&state, &[], M0), []);
    }

    #[test]
    fn sums_are_signed() {
        let signed: Vec<i32> = (0..16).map(|n| signed_sum(&[n])).collect();
        let expected: Vec<i32> = (0..8).chain(-8..0).collect();
        assert_eq!(signed, expected);
        assert_eq!((signed_sum(&[]), signed_sum(&[8; 25])), (0, -200));
    }

    #[test]
    fn positions_and_columns_are_taken_modulo_160() {
        for (before, sum, after) in [(0, -1, 159), (159, 1, 0), (5, -170, 155), (5, 330, 15)] {
            let at = |position: u8| {
                let mut state = State::START;
                state.objects[BL].position = position;
                state
            };
            assert!(position_holds(&at(before), &at(after), BL, sum));
            assert!(!position_holds(&at(before), &at(after + 1), BL, sum));
            let (mut earlier, mut later) = ([0; 160], [0; 160]);
            earlier[7] = 1 << BL;
            later[modulo_160(7 - sum) as usize] = 63;
            assert!(picture_holds(&earlier, &later, BL, sum));
            assert!(!picture_holds(&earlier, &later, P1, sum));
            assert!(!picture_holds(&earlier, &later, BL, sum + 1));
        }
    }

    #[test]
    fn drawing_registers_are_those_of_the_paper() {
        let changed = |registers: &Registers| -> Vec<usize> {
            let drawing = |object| drawing_registers(registers, object);
            let start = |object| drawing_registers(&Registers::START, object);
            let objects = (0..5).filter(|&object| drawing(object) != start(object));
            objects.collect()
        };
        let cases: [(&[u8], u8, &[usize]); 12] = [
            (&[0x04, 0x05], 0x01, &[P0, M0]),
            (&[0x04, 0x05], 0x10, &[M0]),
            (&[0x0B, 0x0C], 0x08, &[P0]),
            (&[0x1B, 0x1C], 0xFF, &[P0]),
            (&[0x1D, 0x1E], 0x02, &[M0]),
            (&[0x25, 0x26], 0x01, &[P0]),
            (&[0x0A], 0x10, &[BL]),
            (&[0x06, 0x07, 0x08, 0x09], 0xFF, &[]),
            (&[0x0A], 0xCF, &[]),
            (&[0x0E], 0xFF, &[]),
            (&[0x1F], 0x02, &[BL]),
            (&[0x27], 0x01, &[BL]),
        ];
        for (addresses, value, objects) in cases {
            for (n, &address) in addresses.iter().enumerate() {
                let mut registers = Registers::START;
                registers.set(register_at(address).unwrap(), value);
                let objects: Vec<usize> = objects.iter().map(|object| object + n).collect();
                assert_eq!(changed(&registers), objects);
            }
        }
        let mut old = Registers::START;
        old.grp_old[1] = 1;
        old.enabl_old = true;
        assert_eq!(changed(&old), [P1, BL]);
    }

    #[test]
    fn sums_that_pass_column_0() {
        // Strobed at 30 the missile stands at column 3, strobed at 100 at column 36; a player at
        // position 4 has its first column at 0, one of size 2 or 4 at 1.
        let mut player = State::START;
        player.objects[P0].position = 4;
        let (mut of_size_2, mut of_size_4) = (player, player);
        of_size_2.registers.copies[P0] = 5;
        of_size_4.registers.copies[P0] = 7;
        let (at_3, at_36) = (missile_strobed_at(30), missile_strobed_at(100));
        let last = [
            (at_3, M0, 3, 1),
            (at_36, M0, 36, 1),
            (at_36, M0, -123, -1),
            (player, P0, 0, 1),
            (of_size_2, P0, 1, 1),
            (of_size_4, P0, 1, 1),
            (of_size_4, P0, -158, -1),
        ];
        for (state, object, sum, further) in last {
            assert!(!passes_column_0(&state, object, sum));
            assert!(passes_column_0(&state, object, sum + further));
        }
    }

    #[test]
    fn a_missile_moved_left_right_over_the_border_and_not_at_all() {
        for (strobe, half_byte, first, moved) in [
            (100, 7, 36, 29),
            (100, 15, 36, 37),
            (100, 8, 36, 44),
            (30, 7, 3, 156),
            (30, 0, 3, 3),
        ] {
            let line = [(0, 0x22, half_byte << 4), (9, 0x2A, 0)];
            let run = played(missile_strobed_at(strobe), &[&line]);
            let expected = Finding {
                half_bytes: vec![half_byte],
                picture: true,
                past_column_0: moved == 156,
                ..Finding::default()
            };
            assert_eq!(run.find(M0), Some(expected));
            let column = |played: &Played| first_lit(&played.buffer, M0 as u8).unwrap();
            assert_eq!(column(run.second_quiet()), Some(first));
            assert_eq!(column(&run.chain[23]), Some(moved));
        }
    }

    #[test]
    fn accepted_lines_alone_count_and_the_picture_is_due_with_equal_drawing_registers() {
        let at_36 = missile_strobed_at(100);
        let mut under_way = at_36;
        under_way.slot = 0;
        under_way.objects[M0].live = true;
        under_way.objects[M0].motion = 3;
        let breach = [(0, 0x22, 0x10), (20, 0x2A, 0), (30, 0x12, 0), (40, 0x00, 0)];
        let refused: [Writes; 3] = [&[(0, 0x22, 0x70)], &breach, &[(15, 0x2A, 0)]];
        let cases: [(State, &[Writes], &[u8], bool); 7] = [
            (at_36, &[], &[], true),
            (at_36, &[&[(80, 0x1D, 0)]], &[], false),
            (at_36, &[&[(80, 0x1D, 0)], &[(9, 0x1D, 2)]], &[], true),
            (at_36, &[&[(80, 0x1E, 2), (90, 0x0A, 0x30)]], &[], true),
            (at_36, &[&[(80, 0x04, 5)]], &[], false),
            (at_36, &refused, &[7], true),
            (under_way, &[&[(9, 0x2A, 0)]], &[3], true),
        ];
        for (state, lines, half_bytes, picture) in cases {
            let finding = played(state, lines).find(M0).unwrap();
            assert_eq!(finding.half_bytes, half_bytes);
            assert_eq!(
                (finding.picture, finding.refused),
                (picture, lines == refused)
            );
            assert!(finding.false_claims.is_empty());
        }
        assert!(played(under_way, &[]).direct.is_none());
        assert_eq!(played(at_36, &[&breach[..3]]).find(M0), None);
    }

    #[test]
    fn a_run_of_no_calls_is_checked_but_none_from_a_bad_state_or_within_a_line() {
        for (h, checked) in [(0, true), (1, false), (227, false), (228, false)] {
            let state = State {
                h,
                ..missile_strobed_at(100)
            };
            let calls = vec![];
            let finding = PlayedRun::new(0, &RunCase { state, calls }).find(M0);
            let expected = Finding {
                picture: true,
                ..Finding::default()
            };
            assert_eq!(finding, Some(expected).filter(|_| checked));
        }
    }

    #[test]
    fn false_claims_are_named() {
        let changes: [(&[&str], fn(&mut PlayedRun)); 4] = [
            (&[], |_| {}),
            (&["position"], |run| {
                run.chain[21].answer.state.objects[M0].position ^= 1
            }),
            (&["picture"], |run| run.chain[23].buffer[99] ^= 1 << M0),
            (&["position from the first state"], |run| {
                let direct = run.direct.as_mut().unwrap();
                direct[19].answer.state.objects[M0].position ^= 1;
            }),
        ];
        for (expected, change) in changes {
            let mut run = played(missile_strobed_at(100), &[&[(9, 0x2A, 0)]]);
            change(&mut run);
            assert_eq!(run.find(M0).unwrap().false_claims, expected);
        }
    }
}
