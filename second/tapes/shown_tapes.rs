//! The test tapes that show something: the bench checks, objects in columns of one, two and three
//! digits, latches, and motion that goes on in the next line.

use crate::cases::bench::checks;
use crate::cases::build_lists::{address_of, playfield_register, records_of};
use crate::cases::build_tapes::tape_of_lines;
use crate::model::latches::PAIRS;
use crate::model::object::{BL, M0, M1, NAMES, P0, P1, PF};
use crate::tapes::test_tapes::Tapes;

/// Columns of one, two and three digits at their edges.
const COLUMNS: [u8; 6] = [0, 9, 10, 99, 100, 159];

/// Clocks at which HMOVE leaves motion for the next line, and one at which it does not.
const LATE_HMOVES: [u8; 8] = [163, 164, 167, 168, 200, 224, 226, 227];

/// The clock whose strobe shows a player from column 37 on in the next line.
const STROBE: u8 = 100;

/// The writes of a line: clock, address, value.
pub type Writes = Vec<(u8, u8, u8)>;

/// The tapes.
pub fn tapes() -> Tapes {
    let mut tapes = Tapes::new();
    for check in checks() {
        tapes.push((format!("bench_{}", check.name), check.tape()));
    }
    let mut add = |name: &str, lines: &[Writes]| {
        tapes.push((name.to_string(), tape_of_writes(lines)));
    };
    let names = NAMES.map(str::to_lowercase);
    for (object, name) in names.iter().enumerate() {
        add(&format!("columns_of_{name}"), &lines_by_column(object));
    }
    for copies in 0..8 {
        add(&format!("copies_{copies}"), &lines_with_copies(copies));
    }
    for hmove in LATE_HMOVES {
        add(&format!("late_hmove_at_{hmove}"), &lines_with_hmove(hmove));
    }
    let all = overlapping(&[P0, P1, M0, M1, BL, PF]);
    add("latches_all_set", &[all.clone(), vec![]]);
    for (first, second) in PAIRS {
        let name = format!("latch_{}_{}_alone", names[first], names[second]);
        add(&name, &[overlapping(&[first, second]), vec![]]);
    }
    for clock in 108..=116 {
        let name = format!("latches_after_cxclr_at_{clock}");
        add(&name, &[all.clone(), vec![(clock, 0x2C, 0)]]);
    }
    // Missile 0 at column 3 over a playfield that is lit in columns 0 to 7 alone.
    let strobe = vec![(0, 0x1D, 2), (30, 0x12, 0)];
    let shown = vec![(0, 0x0D, 0x30), (80, 0x0D, 0)];
    let blank = vec![(0, 0x0D, 0x30), (9, 0x2A, 0), (80, 0x0D, 0)];
    add("latch_in_columns_0_to_7", &[strobe.clone(), shown]);
    add("no_latch_in_blank_columns", &[strobe, blank]);
    tapes
}

/// The tape of lines with these writes.
pub fn tape_of_writes(lines: &[Writes]) -> Vec<u8> {
    let lines: Vec<_> = lines.iter().map(|line| records_of(line)).collect();
    tape_of_lines(&lines)
}

/// The writes, early in a line, that make an object show, eight columns wide or one; for the
/// playfield the one that lights columns 16 to 47.
pub fn showing_writes(object: usize, wide: bool) -> Writes {
    let (graphic, width) = if wide { (255, 0x30) } else { (128, 0) };
    match object {
        P0 => vec![(0, 0x1B, graphic)],
        P1 => vec![(1, 0x1C, graphic)],
        M0 => vec![(2, 0x1D, 2), (3, 0x04, width)],
        M1 => vec![(4, 0x1E, 2), (5, 0x05, width)],
        BL => vec![(6, 0x1F, 2), (7, 0x0A, width)],
        _ => vec![(8, 0x0E, 255)],
    }
}

/// The strobe of an object at a clock.
pub fn strobe(object: usize, clock: u8) -> (u8, u8, u8) {
    (clock, 0x10 + object as u8, 0)
}

/// The clock at which a strobe makes an object first show in a column of the second line after it:
/// a player's first column is five after its start, that of the others four.
fn strobe_clock(object: usize, column: u8) -> u8 {
    let first = if object == P0 || object == P1 { 5 } else { 4 };
    match column.checked_sub(first) {
        Some(start) => 68 + start,
        None => 68 + 160 - first + column,
    }
}

/// Lines that show an object first in each of the columns: for each the strobe and two lines
/// without writes; for the playfield a line that writes the part of it there on the column's clock.
fn lines_by_column(object: usize) -> Vec<Writes> {
    if object == PF {
        let from = |column| (68 + column, address_of(playfield_register(column)), 255);
        let line = |column| vec![(0, 0x0D, 0), (1, 0x0E, 0), (2, 0x0F, 0), from(column)];
        return COLUMNS.map(line).to_vec();
    }
    let mut lines = vec![];
    for column in COLUMNS {
        let strobe = strobe(object, strobe_clock(object, column));
        lines.extend([vec![strobe], vec![], vec![]]);
    }
    lines[0].splice(..0, showing_writes(object, false));
    lines
}

/// Player and missile 0 with these copies: the strobes, two lines that show them, and two with the
/// player reflected and its graphic delayed.
fn lines_with_copies(copies: u8) -> Vec<Writes> {
    let strobes = vec![
        (0, 0x1B, 0b0010_0110),
        (1, 0x1D, 2),
        (2, 0x04, 0x10 | copies),
        strobe(P0, STROBE),
        strobe(M0, STROBE + 1),
    ];
    let reflected = vec![(0, 0x0B, 8), (1, 0x1B, 0b0001_1110)];
    vec![strobes, vec![], vec![], reflected, vec![(0, 0x25, 1)]]
}

/// All objects strobed, their motion values set, then HMOVE at this clock and two lines after it.
fn lines_with_hmove(hmove: u8) -> Vec<Writes> {
    let values = [0x70, 0x80, 0x00, 0xF0, 0x30];
    let set = |(n, value)| (n, 0x20 + n, value);
    let mut motion: Writes = (0..5).zip(values).map(set).collect();
    motion.push((hmove, 0x2A, 0));
    let objects = overlapping(&[P0, P1, M0, M1, BL]);
    vec![objects, vec![], motion, vec![], vec![]]
}

/// A line that makes these objects show, wide, and strobes them on clocks next to each other, so
/// that all of them are lit together in the next line.
fn overlapping(objects: &[usize]) -> Writes {
    let mut line = Writes::new();
    for &object in objects {
        line.extend(showing_writes(object, true));
        if object != PF {
            line.push(strobe(object, STROBE + object as u8));
        }
    }
    line.sort_unstable();
    line
}

#[cfg(test)]
mod tests {
    use super::*;
    use crate::model::first_lit::first_lit;
    use crate::model::replay::replay;

    #[test]
    fn objects_are_first_lit_in_the_columns_meant_and_pairs_latched_alone() {
        for object in [P0, P1, M0, M1, BL, PF] {
            let lines = replay(&tape_of_writes(&lines_by_column(object))).lines;
            let (skipped, step) = if object == PF { (0, 1) } else { (2, 3) };
            let shown = lines.iter().skip(skipped).step_by(step);
            let columns =
                shown.map(|line| first_lit(&line.objects, object as u8).unwrap().unwrap());
            assert!(columns.eq(COLUMNS.map(usize::from)));
        }
        for (n, (first, second)) in PAIRS.into_iter().enumerate() {
            let tape = tape_of_writes(&[overlapping(&[first, second]), vec![]]);
            let latches = replay(&tape).end.unwrap().latches;
            assert!((0..15).all(|latch| latches[latch] == (latch == n)));
        }
    }
}
