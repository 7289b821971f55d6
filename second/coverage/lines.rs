//! The rows for accepted line calls: those of lines and those of tapes, where a line is played.

use crate::coverage::seen::Seen;
use crate::coverage::table::{named, Table, FEW, MOVABLE, OBJECTS};
use crate::model::registers::{Register, KNOWN};
use crate::model::state::NO_MOTION;
use crate::model::write_list::{CLOCKS, MOST_BYTES};
use crate::reports::demand3::clocks_of;

/// Adds all of them.
pub fn add(table: &mut Table) {
    written_registers(table);
    lists(table);
    hmoves(table);
    motion_and_late_flag(table);
    columns(table);
    kept_buffers(table);
}

/// Every register on accepted clocks, in accepted lines, in runs and in played lines.
fn written_registers(table: &mut Table) {
    let [mut rows, _, line, run, tape] = table.by_kind();
    let registers = || KNOWN.map(|(_, name, register)| (name, register));
    rows.each(8, "{} written in a single record", registers())
        .when(|seen, register| !seen.clock.in_walk && seen.wrote(register));
    rows.each(20, "{} written in a walk", registers())
        .when(|seen, register| seen.clock.in_walk && seen.wrote(register));
    for (mut rows, times) in [(line, 100), (run, 100), (tape, 50)] {
        rows.each(times, "{} written", registers())
            .when(Seen::wrote);
    }
}

/// Accepted lines by the length of their lists.
fn lists(table: &mut Table) {
    let [_, _, mut line, ..] = table.by_kind();
    line.row(1000, "accepted").when(Seen::accepted);
    line.row(FEW, "accepted with over 90 writes")
        .when(|seen| seen.accepted() && seen.line.list.len() > 3 * 90);
    line.row(20, "accepted with an empty list")
        .when(|seen| seen.accepted() && seen.line.list.is_empty());
    line.row(FEW, "accepted with 684 bytes of writes")
        .when(|seen| seen.accepted() && seen.line.list.len() == MOST_BYTES);
}

/// The clocks of the HMOVEs in a line that was accepted.
fn hmove_clocks(seen: &Seen) -> Vec<u8> {
    let line = seen.accepted_lines().next();
    line.map_or(vec![], |line| clocks_of(line, Register::Hmove))
}

/// HMOVE at every clock, and twice in a line.
fn hmoves(table: &mut Table) {
    let [_, _, mut line, ..] = table.by_kind();
    line.each(FEW, "HMOVE at {}", named(0..CLOCKS as u8))
        .when(|seen, clock| hmove_clocks(seen).contains(&clock));
    line.row(FEW, "two HMOVEs or more")
        .when(|seen| hmove_clocks(seen).len() > 1);
}

/// Motion under way and the late flag at a line's start and end.
fn motion_and_late_flag(table: &mut Table) {
    let [_, _, mut line, _, mut tape] = table.by_kind();
    let hmove = [("without", false), ("with", true)];
    line.each(FEW, "late flag set at the start, {} HMOVE at 0", hmove)
        .when(|seen, at_0| {
            seen.accepted() && seen.given.late && hmove_clocks(seen).contains(&0) == at_0
        });
    tape.row(FEW, "played, late flag set at the start")
        .when(|seen| seen.accepted() && seen.given.late);
    for mut rows in [line, tape.under("played, ")] {
        rows.each(FEW, "slot {} at the start", named(0..=NO_MOTION))
            .when(|seen, slot| seen.accepted() && seen.given.slot == slot);
        rows.each(FEW, "motion of {} under way at the start", MOVABLE)
            .when(|seen, object| seen.accepted() && seen.given.objects[object].live);
        rows.row(FEW, "slot below 16 at the end")
            .when(|seen| seen.accepted() && seen.after.slot < NO_MOTION);
        rows.row(FEW, "late flag set at the end")
            .when(|seen| seen.accepted() && seen.after.late);
    }
}

/// What accepted lines show.
fn columns(table: &mut Table) {
    let [_, _, mut line, _, tape] = table.by_kind();
    for column in [0, 159] {
        line.each(FEW, &format!("{{}} first lit at column {column}"), OBJECTS)
            .when(move |seen, object| seen.accepted() && seen.first_column(object) == Some(column));
    }
    line.row(50, "every object lit")
        .when(|seen| seen.accepted() && (0..6).all(|object| seen.first_column(object).is_some()));
    line.row(20, "no column holds 64")
        .when(|seen| seen.accepted() && !seen.line.buffer.contains(&64));
    for (mut rows, times) in [(line, 100), (tape, 50)] {
        rows.each(times, "{} lit", OBJECTS)
            .when(|seen, object| seen.accepted() && seen.first_column(object).is_some());
        rows.each(times, "{} unlit", OBJECTS)
            .when(|seen, object| seen.accepted() && seen.first_column(object).is_none());
        rows.row(20, "columns 0 to 7 hold 64")
            .when(|seen| seen.accepted() && seen.line.buffer.starts_with(&[64; 8]));
    }
}

/// The first lit column in the kept bytes of refused calls, also after bytes that are over 63 and
/// have the object's bit.
fn kept_buffers(table: &mut Table) {
    let [_, _, mut line, ..] = table.by_kind();
    line.each(FEW, "{} first lit in kept bytes", OBJECTS)
        .when(|seen, object| !seen.accepted() && seen.first_column(object).is_some());
    line.each(FEW, "{} first lit after kept bytes over 63", OBJECTS)
        .when(|seen, object| {
            let over = |byte: &u8| *byte > 63 && byte >> object & 1 == 1;
            let after_over = |column: usize| seen.line.buffer[..column].iter().any(over);
            !seen.accepted() && seen.first_column(object).map_or(false, after_over)
        });
}
