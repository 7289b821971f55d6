//! The rows for the refusals of clocks and line calls, by themselves and in their order; those of
//! tape calls here are of the line which reading finds.

use crate::cases::random_lists::unknown_addresses;
use crate::cases::spoil::LINE_FAULTS;
use crate::cases::state_fields::{checked_fields, faults, to_bytes, Fault};
use crate::coverage::seen::Seen;
use crate::coverage::table::{named, Table, FEW, MOVABLE};
use crate::model::clock::RegisterWrite;
use crate::model::registers::register_at;
use crate::model::write_list::MOST_BYTES;

/// Adds all of them.
pub fn add(table: &mut Table) {
    refused_clocks(table);
    bad_states(table);
    whole_calls(table);
    bad_lists(table);
    bad_records(table);
    unknown_registers(table);
    orders(table);
}

/// Refusal 1 of a clock, whatever is written, and refusals in walks.
fn refused_clocks(table: &mut Table) {
    let [_, mut rows, ..] = table.by_kind();
    let writes = [
        ("without a write", None),
        ("with a known register written", Some(true)),
        ("with an unknown register written", Some(false)),
    ];
    rows.each(FEW, "refusal 1 {}", writes).when(|seen, known| {
        let is_known = |write: RegisterWrite| register_at(write.address).is_some();
        seen.refused_with(1) && seen.clock.write.map(is_known) == known
    });
    rows.row(FEW, "refusal 1 with several faults")
        .when(|seen| seen.refused_with(1) && faults(&to_bytes(&seen.given)).len() > 1);
    rows.each(FEW, "walk: clock refused with {}", named([1, 7]))
        .when(|seen, number| seen.clock.in_walk && seen.refused_with(number));
}

/// Whether it was refused with 1 for this fault alone.
fn refused_for(seen: &Seen, fault: Fault) -> bool {
    seen.refused_with(1) && faults(&to_bytes(&seen.given)) == [fault]
}

/// Refusal 1 for each field alone out of range and each live flag alone with slot 16; for clocks
/// also at each of the bytes next to a field's range and at 255.
fn bad_states(table: &mut Table) {
    let [_, mut rows, mut line, _, mut tape] = table.by_kind();
    for (n, field) in checked_fields() {
        let name = format!("refusal 1 for {} alone being {{}}", field.name);
        rows.each(3, &name, named(field.beyond()))
            .when(move |seen, byte| {
                refused_for(seen, Fault::Field(n)) && to_bytes(&seen.given)[n] == byte
            });
    }
    let fields = || checked_fields().map(|(n, field)| (field.name, n));
    for (mut rows, times) in [
        (rows.under("refusal 1"), FEW),
        (line.under("refused with 1"), 3),
        (tape.under("line refused with 1"), 1),
    ] {
        rows.each(times, " for {} alone", fields())
            .when(|seen, n| refused_for(seen, Fault::Field(n)));
        rows.each(times, " for the live flag of {} alone", MOVABLE)
            .when(|seen, n| refused_for(seen, Fault::Live(n)));
    }
}

/// Each refusal by a line call's only fault, and refusals 2, 3 and 11 at the edges.
fn whole_calls(table: &mut Table) {
    let [_, _, mut line, _, mut tape] = table.by_kind();
    let only = |seen: &Seen, number| seen.refused_with(number) && seen.line.faults.len() == 1;
    line.each(10, "{} the only fault", named(LINE_FAULTS))
        .when(only);
    let of_tapes = LINE_FAULTS.into_iter().filter(|&number| number != 4);
    tape.each(10, "{} the only fault of a line", named(of_tapes))
        .when(only);
    for mut rows in [line, tape.under("line ")] {
        rows.each(3, "refused with 2 at h = {}", named([1, 68, 227]))
            .when(|seen, h| seen.refused_with(2) && seen.given.h == h);
        let lengths = named([0, 1, 159, 161, 255]);
        rows.each(FEW, "refused with 3 for a buffer of {} bytes", lengths)
            .when(|seen, length| seen.refused_with(3) && seen.line.length == length);
        let lengths = named([0, 1, 159, 161, 255]);
        let name = "refused with 11 for a colour buffer of {} bytes";
        rows.each(FEW, name, lengths)
            .when(|seen, length| seen.refused_with(11) && seen.line.colour_length == length);
        let name = "refused with 3, both buffers of {} bytes";
        rows.each(FEW, name, named([0, 1, 159, 161, 255]))
            .when(|seen, length| {
                let both = seen.line.length == length && seen.line.colour_length == length;
                seen.refused_with(3) && both
            });
    }
}

/// Refusal 4, which is no fault of a line that reading finds, by its two reasons.
fn bad_lists(table: &mut Table) {
    let [_, _, mut line, ..] = table.by_kind();
    let name = "refused with 4 for {} bytes after the records";
    line.each(FEW, name, named([1, 2])).when(|seen, rest| {
        let length = seen.line.list.len();
        seen.refused_with(4) && length < MOST_BYTES && length % 3 == rest
    });
    let lengths = named([1, 2, 682, 683].into_iter().chain(685..=699));
    line.each(2, "refused with 4 for {} bytes", lengths)
        .when(|seen, length| seen.refused_with(4) && seen.line.list.len() == length);
}

/// Refusals 5 to 7 by the record's index and its clock.
fn bad_records(table: &mut Table) {
    let [_, _, mut line, _, mut tape] = table.by_kind();
    for (number, least) in [(5, 0), (6, 1), (7, 0)] {
        let at = move |seen: &Seen, index| seen.refused_with(number) && seen.record == index;
        let mut line = line.under(&format!("refused with {number} for "));
        line.each(FEW, "record {}", named((least..=1).chain([227])))
            .when(at);
        let places = [("a record between", false), ("the last record", true)];
        line.each(FEW, "{}", places).when(move |seen, is_last| {
            let last = seen.record + 1 == seen.line.list.len() / 3;
            seen.refused_with(number) && seen.record > 1 && last == is_last
        });
        let mut tape = tape.under(&format!("line refused with {number}, record "));
        tape.each(FEW, "{}", named([least, 227])).when(at);
        tape.each(FEW, "above {}", named([least]))
            .when(move |seen, least| seen.refused_with(number) && seen.record > least);
    }
    line.each(FEW, "refused with 5 for clock {}", named([228, 255]))
        .when(|seen, clock| seen.refused_with(5) && seen.bad_record().clock == clock);
    let orders = [("equal", true), ("falling", false)];
    line.each(FEW, "refused with 6 for {} clocks", orders)
        .when(|seen, equal| {
            let clock_at = |index: usize| seen.line.list[3 * index];
            let same = || clock_at(seen.record) == clock_at(seen.record - 1);
            seen.refused_with(6) && same() == equal
        });
}

/// Refusal 7 for each unknown address.
fn unknown_registers(table: &mut Table) {
    let [_, mut rows, mut line, ..] = table.by_kind();
    let hexadecimal = |address: u8| (format!("{address:02X}"), address);
    let addresses = || unknown_addresses().into_iter().map(hexadecimal);
    rows.each(FEW, "unknown register {} refused with 7", addresses())
        .when(|seen, address| {
            seen.refused_with(7) && seen.clock.write.map(|write| write.address) == Some(address)
        });
    line.each(1, "refused with 7 for register {}", addresses())
        .when(|seen, address| seen.refused_with(7) && seen.bad_record().write.address == address);
}

/// A fault of the whole call before every later one; a bad record before a later one; the clock's
/// fault before the register's in one record.
fn orders(table: &mut Table) {
    let [_, _, mut line, _, mut tape] = table.by_kind();
    for (n, first) in LINE_FAULTS.into_iter().take(5).enumerate() {
        let before = move |seen: &Seen, second| {
            seen.refused_with(first) && seen.has(|fault| fault.number == second)
        };
        let name = format!("refused with {first}, {{}} present");
        let later = || LINE_FAULTS.into_iter().skip(n + 1);
        line.each(FEW, &name, named(later())).when(before);
        if first != 4 {
            let later = later().filter(|&second| second != 4);
            let mut tape = tape.under("line ");
            tape.each(FEW, &name, named(later)).when(before);
        }
    }
    for first in 5..=7 {
        let name = format!("refused with {first}, {{}} in a later record");
        line.each(FEW, &name, named(5..=7))
            .when(move |seen, second| {
                let later = seen.has(|fault| fault.number == second && fault.record > seen.record);
                seen.refused_with(first) && later
            });
    }
    line.each(FEW, "refused with {}, 7 in the same record", named([5, 6]))
        .when(|seen, first| {
            let same = seen.has(|fault| fault.number == 7 && fault.record == seen.record);
            seen.refused_with(first) && same
        });
    tape.each(3, "line refused with {}, a later record bad", named(5..=7))
        .when(|seen, first| {
            seen.refused_with(first) && seen.has(|fault| fault.record > seen.record)
        });
}
