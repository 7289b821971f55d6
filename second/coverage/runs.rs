//! The rows for runs: first states, refused calls, what goes on from call to call, and demand 3:
//! its claims, and its premises at their edges.

use crate::cases::spoil::CALL_FAULTS;
use crate::coverage::seen::{Seen, SeenCall};
use crate::coverage::table::{named, Rows, Table, FEW, MOVABLE};
use crate::model::registers::{register_at, Register};
use crate::model::state::{State, NO_MOTION};
use crate::model::write_list::ListedWrite;
use crate::reports::demand3::{clocks_of, sets_motion, Finding, Line};
use crate::reports::demand3::{LAST_GUARDED_CLOCK, LAST_HMOVE_CLOCK};

/// Adds all of them.
pub fn add(table: &mut Table) {
    let [.., mut rows, _] = table.by_kind();
    first_states(&mut rows);
    calls(&mut rows);
    claims(&mut rows);
    premises(&mut rows);
    premises_at_their_edges(&mut rows);
    premises_broken(&mut rows);
}

/// Whether this holds of one of the run's own calls, as they were accepted or refused.
fn some_call(seen: &Seen, accepted: bool, holds: impl Fn(&SeenCall) -> bool) -> bool {
    let mut calls = seen.line.calls.iter();
    calls.any(|call| (call.number == 0) == accepted && holds(call))
}

/// Whether a line writes a register.
fn writes(line: &Line, register: Register) -> bool {
    !clocks_of(line, register).is_empty()
}

/// The clock of a line's first HMOVE.
fn hmove_clock(line: &Line) -> Option<u8> {
    clocks_of(line, Register::Hmove).first().copied()
}

/// Whether a line sets motion values at a clock.
fn sets_motion_at(line: &Line, clock: u8) -> bool {
    let mut records = line.iter();
    records.any(|record| record.clock == clock && sets_motion(record))
}

/// Whether the run keeps the premises of an object and this holds of what is found of it.
fn found(seen: &Seen, object: usize, holds: impl Fn(&Finding) -> bool) -> bool {
    seen.findings[object].as_ref().map_or(false, holds)
}

/// Whether the run keeps the premises of this object.
fn keeps(seen: &Seen, object: usize) -> bool {
    seen.findings[object].is_some()
}

/// Whether the run keeps the premises of some object.
fn keeps_some(seen: &Seen) -> bool {
    (0..5).any(|object| keeps(seen, object))
}

/// Whether the run keeps the premises of some object, and this holds of one of its accepted lines.
fn keeps_with(seen: &Seen, holds: impl Fn(&Line) -> bool) -> bool {
    keeps_some(seen) && seen.accepted_lines().any(holds)
}

/// The states that runs begin with.
fn first_states(rows: &mut Rows) {
    let slots = [("16", true), ("below 16", false)];
    rows.each(50, "first state with slot {}", slots)
        .when(|seen, is_16| (seen.given.slot == NO_MOTION) == is_16);
    rows.row(50, "first state with the late flag set")
        .when(|seen| seen.given.late);
    rows.row(FEW, "the start state first")
        .when(|seen| seen.given == State::START);
}

/// Calls refused in every way that a good first state with h = 0 leaves, and states that a call is
/// given by the one before.
fn calls(rows: &mut Rows) {
    rows.each(50, "call refused with {}", named(CALL_FAULTS))
        .when(|seen, number| some_call(seen, false, |call| call.number == number));
    for (n, first) in CALL_FAULTS.into_iter().take(3).enumerate() {
        let later = CALL_FAULTS.into_iter().skip(n + 1);
        let name = format!("call refused with {first}, {{}} present");
        rows.each(FEW, &name, named(later))
            .when(move |seen, second| {
                let has = |call: &SeenCall| call.faults.iter().any(|fault| fault.number == second);
                some_call(seen, false, |call| call.number == first && has(call))
            });
    }
    rows.row(50, "call given the late flag set")
        .when(|seen| seen.line.calls.iter().any(|call| call.given.late));
    for (times, how, accepted) in [(50, "accepted", true), (FEW, "refused", false)] {
        rows.row(times, &format!("{how} call given motion under way"))
            .when(move |seen| some_call(seen, accepted, |call| call.given.slot < NO_MOTION));
    }
    let refused = |call: Option<&SeenCall>| call.map_or(false, |call| call.number != 0);
    rows.row(FEW, "first call refused")
        .when(move |seen| refused(seen.line.calls.first()));
    rows.row(FEW, "last call refused")
        .when(move |seen| refused(seen.line.calls.last()));
    rows.row(FEW, "two calls in a row refused").when(|seen| {
        let mut pairs = seen.line.calls.windows(2);
        pairs.any(|two| two[0].number != 0 && two[1].number != 0)
    });
    rows.row(FEW, "no call refused")
        .when(|seen| !some_call(seen, false, |_| true));
}

/// The claims that are due, by object and half byte at an HMOVE, and the runs that they are due in.
fn claims(rows: &mut Rows) {
    for half_byte in 0..16 {
        let with = move |finding: &Finding| finding.half_bytes.contains(&half_byte);
        let name = format!("position of {{}} with half byte {half_byte}");
        rows.each(50, &name, MOVABLE)
            .when(move |seen, n| found(seen, n, with));
        let name = format!("picture of {{}} with half byte {half_byte}");
        rows.each(50, &name, MOVABLE)
            .when(move |seen, n| found(seen, n, |finding| finding.picture && with(finding)));
    }
    rows.each(100, "{} with a refused call", MOVABLE)
        .when(|seen, n| found(seen, n, |finding| finding.refused));
    rows.each(100, "{} with a sum past column 0", MOVABLE)
        .when(|seen, n| found(seen, n, |finding| finding.past_column_0));
    rows.each(50, "position of {} due from the first state", MOVABLE)
        .when(|seen, n| keeps(seen, n) && seen.given.slot == NO_MOTION);
    rows.each(50, "picture of {} due, lit", MOVABLE)
        .when(|seen, n| {
            found(seen, n, |finding| finding.picture) && seen.first_column(n).is_some()
        });
}

/// The premises of each object, kept and broken by its strobe.
fn premises(rows: &mut Rows) {
    rows.each(100, "premises of {} kept", MOVABLE).when(keeps);
    rows.each(10, "premises of {} broken by its strobe alone", MOVABLE)
        .when(|seen, n| keeps_some(seen) && !keeps(seen, n));
    rows.each(10, "premises of {} kept, strobe in a refused call", MOVABLE)
        .when(|seen, n| {
            let strobed = |call: &SeenCall| writes(&call.records, Register::Strobe(n));
            keeps(seen, n) && some_call(seen, false, strobed)
        });
}

/// What the premises just allow.
fn premises_at_their_edges(rows: &mut Rows) {
    let clocks = named(0..=LAST_HMOVE_CLOCK);
    rows.each(10, "premises kept with HMOVE at {}", clocks)
        .when(|seen, clock| keeps_with(seen, |line| hmove_clock(line) == Some(clock)));
    let mut rows = rows.under("premises kept, ");
    rows.row(10, "motion set on the clock before HMOVE")
        .when(|seen| {
            keeps_with(seen, |line| {
                let before = hmove_clock(line).and_then(|clock| clock.checked_sub(1));
                before.map_or(false, |clock| sets_motion_at(line, clock))
            })
        });
    rows.row(10, "motion set at 76 after HMOVE").when(|seen| {
        let at_76 = |line: &Line| sets_motion_at(line, LAST_GUARDED_CLOCK + 1);
        keeps_with(seen, |line| writes(line, Register::Hmove) && at_76(line))
    });
    rows.row(10, "HMOVE in a refused call").when(|seen| {
        let hmove = |call: &SeenCall| writes(&call.records, Register::Hmove);
        keeps_some(seen) && some_call(seen, false, hmove)
    });
}

/// Whether a line writes a motion register, or HMCLR, at one of these clocks after its only HMOVE,
/// which stands at clocks 0 to 15.
fn sets_motion_late(line: &Line, by_hmclr: bool, (first, last): (u8, u8)) -> bool {
    let hmoves = clocks_of(line, Register::Hmove);
    let sets = |record: &ListedWrite| {
        let hmclr = register_at(record.write.address) == Some(Register::Hmclr);
        sets_motion(record) && hmclr == by_hmclr && (first..=last).contains(&record.clock)
    };
    matches!(hmoves[..], [clock] if clock <= LAST_HMOVE_CLOCK) && line.iter().any(sets)
}

/// What just breaks the premises of all objects.
fn premises_broken(rows: &mut Rows) {
    rows.row(FEW, "HMOVE at 16").when(|seen| {
        let mut lines = seen.accepted_lines();
        lines.any(|line| hmove_clock(line) == Some(LAST_HMOVE_CLOCK + 1))
    });
    rows.row(FEW, "two HMOVEs in a line").when(|seen| {
        let mut lines = seen.accepted_lines();
        lines.any(|line| clocks_of(line, Register::Hmove).len() == 2)
    });
    rows.row(FEW, "motion set at 75 after HMOVE at 0 to 15")
        .when(|seen| {
            let early = |line| hmove_clock(line).map_or(false, |clock| clock <= LAST_HMOVE_CLOCK);
            let mut lines = seen.accepted_lines();
            lines.any(|line| early(line) && sets_motion_at(line, LAST_GUARDED_CLOCK))
        });
    for (what, by_hmclr) in [("motion register", false), ("HMCLR", true)] {
        let name = format!("{what} written at {{}} after the line's only HMOVE at 0 to 15");
        let clocks = [("72", (72, 72)), ("16 to 71", (16, 71))];
        rows.each(FEW, &name, clocks).when(move |seen, clocks| {
            let mut lines = seen.accepted_lines();
            lines.any(|line| sets_motion_late(line, by_hmclr, clocks))
        });
    }
}
