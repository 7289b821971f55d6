//! The runs of the case file: the bench checks, runs that but for one line keep the premises of
//! demand 3, runs that keep them for some objects, and runs of any lists.

use crate::cases::bench::checks;
use crate::cases::build_lists::address_of;
use crate::cases::case::{Call, RunCase, RUN_CALLS};
use crate::cases::chip_cases::Group;
use crate::cases::random::Random;
use crate::cases::random_lists::{free_list, hmove_at, put, rising_clocks, write_at};
use crate::cases::random_states::line_start_state;
use crate::cases::spoil::{spoil_call, CALL_FAULTS};
use crate::model::registers::{register_at, Register, Registers, KNOWN};
use crate::model::state::State;
use crate::model::write_list::ListedWrite;

/// Clocks after an HMOVE at which a line that fails the premises sets motion values, 72 being the
/// latest that can matter.
const LATE_MOTION: [u8; 22] = [
    16, 17, 20, 21, 24, 28, 31, 32, 36, 40, 44, 48, 52, 56, 60, 64, 68, 69, 70, 71, 72, 75,
];

/// Clocks that are too late for an HMOVE.
const LATE_HMOVES: [u8; 17] = [
    16, 16, 17, 18, 19, 20, 24, 32, 48, 64, 66, 67, 68, 100, 163, 164, 227,
];

/// Clocks of a second HMOVE in a line.
const SECOND_HMOVES: [u8; 12] = [2, 3, 5, 8, 12, 15, 16, 40, 67, 68, 150, 227];

/// The groups in their order.
pub const GROUPS: [Group<RunCase>; 2] = [bench_checks, failing_runs];

/// The records of a line.
type Line = Vec<ListedWrite>;

/// Of each five runs three that keep the premises of an object, and two of any lists.
pub fn other(random: &Random) -> RunCase {
    match random.up_to(4) {
        0..=2 => moving_run(random, random.index(5)),
        _ => RunCase {
            state: line_start_state(random),
            calls: calls_of(random, 6, || free_list(random)),
        },
    }
}

/// The bench checks.
fn bench_checks(_: &Random, runs: &mut Vec<RunCase>) {
    let checks = checks().into_iter();
    runs.extend(checks.map(|check| RunCase::of_lines(State::START, &check.lines)));
}

/// Runs that but for one line keep the premises of an object.
fn failing_runs(random: &Random, runs: &mut Vec<RunCase>) {
    for object in 0..5 {
        for line in failing_lines(random, object) {
            let mut run = moving_run(random, object);
            run.calls[random.index(RUN_CALLS - 1)] = Call::with(&line);
            runs.push(run);
        }
    }
}

/// The calls of a run with these lines; one in so many is refused instead, with 3 to 7 or 11,
/// at times with two faults.
fn calls_of(random: &Random, refused_in: u8, line: impl Fn() -> Line) -> Vec<Call> {
    let calls = (0..RUN_CALLS).map(|_| {
        let refused = random.one_in(refused_in);
        let list = if refused { free_list(random) } else { line() };
        let mut call = Call::with(&list);
        if refused {
            spoil_call(random, &mut call, random.pick(&CALL_FAULTS));
            if random.one_in(4) {
                spoil_call(random, &mut call, random.pick(&CALL_FAULTS));
            }
        }
        call
    });
    calls.collect()
}

/// The lines that fail the premises of an object, by setting motion values after an HMOVE, by an
/// HMOVE too late, by a second one and by the object's strobe.
fn failing_lines(random: &Random, object: usize) -> Vec<Line> {
    let any = LATE_MOTION.map(|clock| (random.between(8, 15), clock));
    let latest = (8..=15).map(|hmove| (hmove, 72));
    let mut lines = Vec::new();
    for (hmove, clock) in any.into_iter().chain(latest) {
        let clears = [false, true];
        lines.extend(clears.map(|clear| late_motion(random, object, hmove, clock, clear)));
    }
    lines.extend(LATE_HMOVES.map(|clock| late_hmove(random, object, clock)));
    lines.extend(SECOND_HMOVES.map(|second| two_hmoves(random, object, second)));
    let strobe = address_of(Register::Strobe(object));
    lines.extend((0..6).map(|_| vec![write_at(random, random.up_to(227), strobe)]));
    lines
}

/// A write that gives an object the motion value whose comparison is equal at this slot.
fn motion_at(random: &Random, clock: u8, object: usize, end_slot: u8) -> ListedWrite {
    let half_byte = (end_slot + 8) % 16;
    let value = half_byte << 4 | random.up_to(15);
    ListedWrite::new(clock, address_of(Register::Motion(object)), value)
}

/// A line with an HMOVE at 8 to 15 and a write to the object's motion register, or to HMCLR, at a
/// clock after it. The object's comparison would be equal at the first comparison from that clock
/// on, and is not because of the write; where HMCLR would make it equal there, it would be equal
/// at the next.
fn late_motion(random: &Random, object: usize, hmove: u8, clock: u8, clear: bool) -> Line {
    let slot = ((clock + 3) / 4 - (hmove / 4 + 1)).min(15);
    let end_slot = if clear && slot == 8 { 9 } else { slot };
    let other_slot = (end_slot + random.between(1, 15)) % 16;
    let late = match clear {
        true => write_at(random, clock, address_of(Register::Hmclr)),
        false => motion_at(random, clock, object, other_slot),
    };
    let before = motion_at(random, 0, object, end_slot);
    vec![before, hmove_at(random, hmove), late]
}

/// A line with an HMOVE at a clock from 16 on, and a motion value for which too few comparisons
/// are left in the line's blank.
fn late_hmove(random: &Random, object: usize, clock: u8) -> Line {
    let comparisons = if clock < 68 { 18 - clock / 4 } else { 14 };
    let end_slot = random.between(comparisons + 1, 15);
    let before = motion_at(random, 0, object, end_slot);
    vec![before, hmove_at(random, clock)]
}

/// A line with an HMOVE at 1 to 15 and a second one at a clock, and motion value 7.
fn two_hmoves(random: &Random, object: usize, second: u8) -> Line {
    let first = random.between(1, (second - 1).min(15));
    let before = motion_at(random, 0, object, 15);
    vec![before, hmove_at(random, first), hmove_at(random, second)]
}

/// The values of a run's motion registers, from a first to a last.
type Values = (u8, u8);

/// Any values; those that go left, half bytes 4 to 7; those that go right, 8 to 11.
const VALUES: [Values; 4] = [(0x00, 0xFF), (0x00, 0xFF), (0x40, 0x7F), (0x80, 0xBF)];

/// A run that keeps the premises of demand 3 for this object and for the others whose strobes it
/// does not use; in most of them the drawing registers are those of the first state again at the
/// end.
fn moving_run(random: &Random, object: usize) -> RunCase {
    let mut state = line_start_state(random);
    let equal = random.index(2);
    state.registers.grp_old[equal] = state.registers.grp_new[equal];
    let values = random.pick(&VALUES);
    let addresses = addresses_without_strobes(random, object);
    let mut calls = calls_of(random, 8, || moving_line(random, &addresses, values));
    if !random.one_in(5) {
        calls[RUN_CALLS - 1] = Call::with(&restoring_line(random, &state));
    }
    RunCase { state, calls }
}

/// The known addresses but HMOVE, this object's strobe and most of the other strobes.
fn addresses_without_strobes(random: &Random, object: usize) -> Vec<u8> {
    let mut known = KNOWN.to_vec();
    known.retain(|(_, _, register)| match register {
        Register::Hmove => false,
        Register::Strobe(other) => *other != object && random.one_in(4),
        _ => true,
    });
    known.iter().map(|known| known.0).collect()
}

/// A line with writes to these addresses and more to motion registers from clock 76 on; in two
/// lines of three with an HMOVE that keeps the premises.
fn moving_line(random: &Random, addresses: &[u8], values: Values) -> Line {
    let mut line = Line::new();
    for clock in rising_clocks(random, 0, random.up_to(14)) {
        let address = random.pick(addresses);
        line.push(moving_write(random, clock, address, values));
    }
    for _ in 0..random.up_to(3) {
        let any = random.between(76, 227);
        put_motion(random, &mut line, random.pick(&[76, any, any, any]), values);
    }
    if !random.one_in(3) {
        let any = random.up_to(15);
        put_allowed_hmove(random, &mut line, random.pick(&[0, 15, any, any]), values);
    }
    line
}

/// A write at a clock to an address; to a motion register with one of these values.
fn moving_write(random: &Random, clock: u8, address: u8, values: Values) -> ListedWrite {
    let mut write = write_at(random, clock, address);
    if let Some(Register::Motion(_)) = register_at(address) {
        write.write.value = random.between(values.0, values.1);
    }
    write
}

/// Puts a write to a motion register, or at times to HMCLR, at a clock.
fn put_motion(random: &Random, line: &mut Line, clock: u8, values: Values) {
    let register = match random.up_to(11) {
        0 => Register::Hmclr,
        n => Register::Motion(usize::from(n % 5)),
    };
    let write = moving_write(random, clock, address_of(register), values);
    put(line, write);
}

/// Puts an HMOVE at a clock, 0 to 15, often with a motion value set before it, and leaves out
/// the motion registers and HMCLR after it up to clock 75.
fn put_allowed_hmove(random: &Random, line: &mut Line, clock: u8, values: Values) {
    for _ in 0..random.up_to(clock.min(3)) {
        let before = random.pick(&[clock - 1, random.up_to(clock - 1)]);
        put_motion(random, line, before, values);
    }
    put(line, hmove_at(random, clock));
    line.retain(|record| {
        let sets_motion = matches!(record.write.address, 0x20..=0x24 | 0x2B);
        !sets_motion || record.clock < clock || record.clock > 75
    });
}

/// A line that makes the drawing registers those of a state of which one player has equal
/// graphics, new and old; at times with an HMOVE.
fn restoring_line(random: &Random, state: &State) -> Line {
    let writes = restoring_writes(&state.registers);
    let clocks = rising_clocks(random, 16, writes.len() as u8);
    let mut line = Line::new();
    for (clock, (register, value)) in clocks.into_iter().zip(writes) {
        line.push(ListedWrite::new(clock, address_of(register), value));
    }
    if random.flag() {
        put(&mut line, hmove_at(random, random.up_to(15)));
    }
    line
}

/// The writes that make the drawing registers these. The player whose graphics may differ is
/// written first and last: the other's write between them copies its old graphic.
fn restoring_writes(registers: &Registers) -> Vec<(Register, u8)> {
    let mut writes = vec![
        (Register::Ctrlpf, registers.ctrlpf),
        (Register::Vdelbl, u8::from(registers.vdelbl)),
    ];
    for n in [0, 1] {
        let nusiz = registers.width_codes[n] << 4 | registers.copies[n];
        writes.extend([
            (Register::Nusiz(n), nusiz),
            (Register::Refp(n), u8::from(registers.refp[n]) << 3),
            (Register::Enam(n), u8::from(registers.enam[n]) << 1),
            (Register::Vdelp(n), u8::from(registers.vdelp[n])),
        ]);
    }
    let differing = usize::from(registers.grp_new[0] == registers.grp_old[0]);
    let equal = 1 - differing;
    writes.extend([
        (Register::Enabl, u8::from(registers.enabl_old) << 1),
        (Register::Grp(differing), registers.grp_old[differing]),
        (Register::Grp(equal), registers.grp_new[equal]),
        (Register::Grp(differing), registers.grp_new[differing]),
        (Register::Enabl, u8::from(registers.enabl_new) << 1),
    ]);
    writes
}

#[cfg(test)]
mod tests {
    use super::*;
    use crate::cases::case::play_chain;
    use crate::cases::random_states::without_motion;

    /// Whether a line and one without writes after it take an object, whose motion value the line
    /// sets first, as far as that value times the number of HMOVEs.
    fn moves_as_meant(random: &Random, line: &[ListedWrite], object: usize) -> bool {
        let state = without_motion(&line_start_state(random));
        let chain = play_chain(&state, &[Call::with(line), Call::with(&[])], 0);
        let position = |state: &State| i32::from(state.objects[object].position);
        let moved = position(&chain[1].answer.state) - position(&state);
        let hmoves = line.iter().filter(|record| record.write.address == 0x2A);
        let half_byte = i32::from(line[0].write.value >> 4);
        let signed = (half_byte + 8) % 16 - 8;
        (moved - signed * hmoves.count() as i32) % 160 == 0
    }

    #[test]
    fn an_allowed_hmove_moves_as_meant_and_lines_that_fail_the_premises_do_not() {
        let random = &Random::new(53);
        for object in 0..5 {
            for (clock, end_slot) in (16..256).map(|n| (n / 16, n as u8 % 16)) {
                let motion = motion_at(random, 0, object, end_slot);
                let line = [motion, hmove_at(random, clock as u8)];
                assert!(moves_as_meant(random, &line, object), "{:?}", line);
            }
            let mut lines = Vec::new();
            for (hmove, clock) in (8..=15).flat_map(|h| (16..=72).map(move |clock| (h, clock))) {
                let late = |clear| late_motion(random, object, hmove, clock, clear);
                lines.extend([late(false), late(true)]);
            }
            lines.extend(LATE_HMOVES.map(|clock| late_hmove(random, object, clock)));
            lines.extend((2..=15).map(|second| two_hmoves(random, object, second)));
            for line in lines {
                assert!(!moves_as_meant(random, &line, object), "{:?}", line);
            }
        }
    }
}
