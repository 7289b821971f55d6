//! The rows for request One: the colour registers, and the colours of clocks, lines, runs and played
//! lines.

use crate::cases::colour_writes::{
    colours_differ, kept_byte, write_changed_colour, COLOURS, DECIDING,
};
use crate::coverage::seen::{Seen, SeenCall};
use crate::coverage::table::{named, Rows, Table, FEW, FLAGS, OBJECTS};
use crate::model::object::{BL, M0, M1, NAMES, P0, P1, PF};
use crate::model::registers::{register_at, Register, Registers};
use crate::reports::demand3::{clocks_of, Line};
use std::ops::RangeInclusive;

/// Columns at the border of the halves and on both sides of it.
const PLACES: [(&str, u8, u8); 4] = [
    ("columns 0 to 78", 0, 78),
    ("column 79", 79, 79),
    ("column 80", 80, 80),
    ("columns 81 to 159", 81, 159),
];

/// CTRLPF bits 1 and 2 with their name.
const PRIORITIES: [(&str, u8); 4] = [
    ("CTRLPF bits 1 and 2 clear", 0b000),
    ("CTRLPF bit 1 alone", 0b010),
    ("CTRLPF bit 2 alone", 0b100),
    ("CTRLPF bits 1 and 2 set", 0b110),
];

/// Bytes that are even or odd.
const PARITIES: [(&str, u8); 2] = [("an even", 0), ("an odd", 1)];

/// Adds all of them.
pub fn add(table: &mut Table) {
    let [mut rows, mut refused, ..] = table.by_kind();
    kept_whole(&mut rows);
    lit_combinations(&mut rows);
    registers_taken(&mut rows);
    written_in_columns(&mut rows);
    rewritten(&mut rows);
    blanked(&mut rows);
    refused_clocks(&mut refused);
    let [_, _, mut line, mut run, mut tape] = table.by_kind();
    edges_of_lines(&mut line);
    lines(&mut line);
    lines(&mut tape.under("played, "));
    from_call_to_call(&mut run);
}

/// CTRLPF bits 1 and 2.
fn priority(registers: &Registers) -> u8 {
    registers.ctrlpf & 0b110
}

/// The column of an accepted clock; none where it is blank.
fn column(seen: &Seen) -> Option<u8> {
    (!seen.blank()).then(|| seen.given.h - 68)
}

/// Whether an accepted clock shows one of these columns.
fn shows(seen: &Seen, columns: RangeInclusive<u8>) -> bool {
    column(seen).map_or(false, |column| columns.contains(&column))
}

/// The byte of a colour register as it is read after an accepted clock, bit 0 as 0.
fn read_byte(seen: &Seen, register: Register) -> u8 {
    kept_byte(&seen.after.registers, register) & 0b1111_1110
}

/// The registers: each written with an even and an odd byte, which is kept.
fn kept_whole(rows: &mut Rows) {
    for (of, in_walk) in [("a single record", false), ("a walk", true)] {
        for (parity, bit) in PARITIES {
            rows.each(FEW, &format!("{{}} keeps {parity} byte in {of}"), COLOURS)
                .when(move |seen, register| {
                    let value = seen.clock.write.map_or(0, |write| write.value);
                    seen.clock.in_walk == in_walk
                        && seen.wrote(register)
                        && value % 2 == bit
                        && kept_byte(&seen.given.registers, register) != value
                        && kept_byte(&seen.after.registers, register) == value
                });
        }
    }
}

/// The colour with each combination of lit objects, with each of CTRLPF bits 1 and 2, the four colours
/// differing.
fn lit_combinations(rows: &mut Rows) {
    for combination in 0..64_u8 {
        let lit: [bool; 6] = std::array::from_fn(|n| combination >> n & 1 == 1);
        let names: Vec<&str> = (0..6).filter(|&n| lit[n]).map(|n| NAMES[n]).collect();
        let names = match names[..] {
            [] => "nothing".to_string(),
            _ => names.join(" "),
        };
        for ((with, bits), (at, first, last)) in PRIORITIES
            .into_iter()
            .flat_map(|priority| PLACES.map(|place| (priority, place)))
        {
            rows.row(FEW, &format!("colour of {names}, {with}, {at}"))
                .when(move |seen| {
                    let registers = &seen.after.registers;
                    seen.done().lit == lit
                        && priority(registers) == bits
                        && shows(seen, first..=last)
                        && colours_differ(registers)
                });
        }
    }
}

/// Whether exactly these objects are lit in an unblanked column, and the four colours differ.
fn lit_alone(seen: &Seen, objects: &[usize]) -> bool {
    let lit = seen.done().lit;
    let alone = (0..6).all(|n| lit[n] == objects.contains(&n));
    alone && !seen.blank() && colours_differ(&seen.after.registers)
}

/// What each object, and nothing, shows: the register's colour, its byte being even and odd; in the
/// score setting the playfield's on both sides.
fn registers_taken(rows: &mut Rows) {
    let takes = [
        ("P0 alone shows COLUP0", &[P0][..], Register::Colup(0)),
        ("M0 alone shows COLUP0", &[M0], Register::Colup(0)),
        ("P1 alone shows COLUP1", &[P1], Register::Colup(1)),
        ("M1 alone shows COLUP1", &[M1], Register::Colup(1)),
        ("BL alone shows COLUPF", &[BL], Register::Colupf),
        ("PF alone shows COLUPF", &[PF], Register::Colupf),
        ("PF alone shows COLUP0", &[PF], Register::Colup(0)),
        ("PF alone shows COLUP1", &[PF], Register::Colup(1)),
        ("BL over PF shows COLUPF", &[BL, PF], Register::Colupf),
        ("nothing lit shows COLUBK", &[], Register::Colubk),
    ];
    for (name, objects, register) in takes {
        rows.each(FEW, &format!("{name}, {{}} byte"), PARITIES)
            .when(move |seen, bit| {
                lit_alone(seen, objects)
                    && seen.done().colour == read_byte(seen, register)
                    && kept_byte(&seen.after.registers, register) % 2 == bit
            });
    }
    rows.each(FEW, "colours not 0 in columns 0 to 7, late flag {}", FLAGS)
        .when(|seen, late| {
            let inside = (68..76).contains(&seen.given.h);
            let differ = colours_differ(&seen.after.registers);
            inside && differ && seen.done().written.late == late
        });
    rows.each(FEW, "colour {}", named([0, 2, 254]))
        .when(|seen, colour| !seen.blank() && seen.done().colour == colour);
}

/// Each register that decides a colour, written below clock 68, in blank columns and in columns at
/// the edges.
fn written_in_columns(rows: &mut Rows) {
    rows.each(FEW, "{} written below 68", DECIDING)
        .when(|seen, register| seen.wrote(register) && seen.given.h < 68);
    rows.each(FEW, "{} written in a blank column", DECIDING)
        .when(|seen, register| seen.wrote(register) && seen.given.h >= 68 && seen.blank());
    for at in [0, 78, 79, 80, 81, 159] {
        rows.each(FEW, &format!("{{}} written in column {at}"), DECIDING)
            .when(move |seen, register| seen.wrote(register) && column(seen) == Some(at));
    }
}

/// Writes on visible clocks that change the colour of the column, the same objects being lit, and
/// writes of bit 0 alone, which do not.
fn rewritten(rows: &mut Rows) {
    let name = "{} changes the colour on the clock of its write";
    rows.each(FEW, name, DECIDING).when(|seen, register| {
        seen.wrote(register) && write_changed_colour(&seen.given, seen.done())
    });
    for (n, side, first, last) in [(0, "left", 0, 79), (1, "right", 80, 159)] {
        let name = format!("COLUP{n} changes the colour of the playfield {side} on its clock");
        rows.row(FEW, &name).when(move |seen| {
            seen.wrote(Register::Colup(n))
                && shows(seen, first..=last)
                && lit_alone(seen, &[PF])
                && write_changed_colour(&seen.given, seen.done())
        });
    }
    let name = "{} rewritten in bit 0 alone keeps the colour";
    rows.each(FEW, name, COLOURS).when(|seen, register| {
        let byte = |registers: &Registers| kept_byte(registers, register);
        let changed = byte(&seen.given.registers) ^ byte(&seen.after.registers);
        changed == 1 && !seen.blank() && seen.done().colour == read_byte(seen, register)
    });
}

/// Colour 0 below clock 68 and in blank columns, with each object lit and its colour not 0, and with
/// nothing lit.
fn blanked(rows: &mut Rows) {
    for (at, first, last) in [("below 68", 0, 67), ("in a blank column", 68, 75)] {
        let blank = move |seen: &Seen| {
            let inside = (first..=last).contains(&seen.given.h);
            inside && seen.blank() && colours_differ(&seen.after.registers)
        };
        let objects = OBJECTS.into_iter().filter(|row| row.1 != PF || first == 68);
        rows.each(FEW, &format!("{{}} lit {at}, colour 0"), objects)
            .when(move |seen, object| blank(seen) && seen.done().lit[object]);
        rows.row(FEW, &format!("nothing lit {at}, colour 0"))
            .when(move |seen| blank(seen) && seen.done().lit == [false; 6]);
    }
    rows.each(FEW, "colours not 0 at h = {}", named([67, 68, 75, 76]))
        .when(|seen, h| seen.given.h == h && colours_differ(&seen.after.registers));
}

/// Refused clocks at visible columns with colours that are not 0.
fn refused_clocks(rows: &mut Rows) {
    let name = "refusal {} at a visible column with colours not 0";
    rows.each(FEW, name, named([1, 7])).when(|seen, number| {
        let visible = (76..228).contains(&seen.given.h);
        seen.refused_with(number) && visible && colours_differ(&seen.given.registers)
    });
}

/// Each register that decides a colour, written at clocks at the edges of a line.
fn edges_of_lines(rows: &mut Rows) {
    for clock in [0, 67, 68, 146, 147, 148, 149, 227] {
        rows.each(FEW, &format!("{{}} written at {clock}"), DECIDING)
            .when(move |seen, register| {
                let mut lines = seen.accepted_lines();
                lines.any(|line| clocks_of(line, register).contains(&clock))
            });
    }
}

/// The byte that a line's last write to a register has.
fn last_value(line: &Line, register: Register) -> Option<u8> {
    let mut records = line.iter().rev();
    let last = records.find(|record| register_at(record.write.address) == Some(register));
    last.map(|record| record.write.value)
}

/// What accepted lines, and played ones, show: bytes that are kept, a colour that changes in the
/// column of its write, the colours of the state given, the border of the halves, blank columns.
fn lines(rows: &mut Rows) {
    for (parity, bit) in PARITIES {
        rows.each(FEW, &format!("{{}} keeps {parity} byte"), COLOURS)
            .when(move |seen, register| {
                let kept = kept_byte(&seen.after.registers, register);
                let mut lines = seen.accepted_lines();
                lines.any(|line| last_value(line, register) == Some(kept) && kept % 2 == bit)
            });
    }
    let name = "the colour changes in the column of a write to {}";
    rows.each(FEW, name, DECIDING).when(|seen, register| {
        let (objects, colours) = (&seen.line.buffer, &seen.line.colours);
        let changes = |clock: u8| {
            let column = usize::from(clock.max(68)) - 68;
            let same = column > 0 && objects[column] == objects[column - 1];
            same && colours[column] != colours[column - 1]
        };
        let mut lines = seen.accepted_lines();
        lines.any(|line| clocks_of(line, register).into_iter().any(changes))
    });
    rows.each(FEW, "{} of the state given shown", COLOURS)
        .when(|seen, register| {
            let byte = kept_byte(&seen.given.registers, register) & 0b1111_1110;
            let mut lines = seen.accepted_lines();
            let unwritten = lines.any(|line| last_value(line, register).is_none());
            let differ = colours_differ(&seen.given.registers);
            seen.accepted() && unwritten && differ && seen.line.colours.contains(&byte)
        });
    for (with, bits) in PRIORITIES {
        rows.row(FEW, &format!("PF alone in columns 79 and 80, {with}"))
            .when(move |seen| {
                let alone = |seen: &Seen| seen.line.buffer[79..81] == [1 << PF; 2];
                let halves = |seen: &Seen| seen.line.colours[79] != seen.line.colours[80];
                seen.accepted()
                    && alone(seen)
                    && priority(&seen.given.registers) == bits
                    && priority(&seen.after.registers) == bits
                    && halves(seen) == (bits == 0b010)
            });
    }
    rows.row(FEW, "colours 0 in columns 0 to 7, not 0 in column 8")
        .when(|seen| {
            let blank = |seen: &Seen| seen.line.buffer.starts_with(&[64; 8]);
            seen.accepted() && blank(seen) && seen.line.colours[8] != 0
        });
    rows.row(FEW, "no column holds 64, column 0 has a colour")
        .when(|seen| {
            let shown = |seen: &Seen| !seen.line.buffer.contains(&64) && seen.line.colours[0] != 0;
            seen.accepted() && shown(seen)
        });
    rows.row(FEW, "more than four colours")
        .when(|seen| seen.accepted() && numbers_of(&seen.line.colours) > 4);
}

/// How many different bytes there are.
fn numbers_of(bytes: &[u8]) -> usize {
    let mut bytes = bytes.to_vec();
    bytes.sort_unstable();
    bytes.dedup();
    bytes.len()
}

/// Colours that go on from call to call of a run, past refused calls, whose writes count for nothing.
fn from_call_to_call(rows: &mut Rows) {
    let goes_on = |seen: &Seen, call: &SeenCall, register: Register| {
        let byte = |registers: &Registers| kept_byte(registers, register);
        let given = byte(&call.given.registers);
        let new = given != byte(&seen.given.registers);
        new && last_value(&call.records, register).is_none()
            && call.colours.contains(&(given & 0b1111_1110))
    };
    rows.each(50, "{} written in an earlier call shown", COLOURS)
        .when(move |seen, register| {
            let mut calls = seen.line.calls.iter();
            calls.any(|call| call.number == 0 && goes_on(seen, call, register))
        });
    rows.each(FEW, "{} shown after a refused call that writes it", COLOURS)
        .when(move |seen, register| {
            let mut pairs = seen.line.calls.windows(2);
            pairs.any(|two| {
                let byte = kept_byte(&two[0].given.registers, register);
                let value = last_value(&two[0].records, register).unwrap_or(byte);
                let refused = two[0].number != 0 && value != byte;
                refused && two[1].number == 0 && goes_on(seen, &two[1], register)
            })
        });
    for (parity, bit) in PARITIES {
        let name = format!("call given {parity} {{}} written in an earlier call");
        rows.each(50, &name, COLOURS).when(move |seen, register| {
            let first = kept_byte(&seen.given.registers, register);
            let mut calls = seen.line.calls.iter();
            calls.any(|call| {
                let given = kept_byte(&call.given.registers, register);
                call.number == 0 && given != first && given % 2 == bit
            })
        });
    }
    for (with, bits) in PRIORITIES {
        rows.row(FEW, &format!("call given {with}"))
            .when(move |seen| {
                let mut calls = seen.line.calls.iter();
                calls.any(|call| call.number == 0 && priority(&call.given.registers) == bits)
            });
    }
}
