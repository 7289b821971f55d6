//! The test tapes that show colours: the combinations of lit objects with each of CTRLPF bits 1 and
//! 2, colour registers rewritten at the edges of the columns, blank columns, colours that go on from
//! line to line, and refused lines that write colours.

use crate::model::object::{BL, M0, M1, P0, P1, PF};
use crate::tapes::shown_tapes::{showing_writes, strobe, tape_of_writes, Writes};
use crate::tapes::test_tapes::Tapes;

/// The addresses of the colour registers with their names.
const COLOURS: [(&str, u8); 4] = [
    ("colup0", 0x06),
    ("colup1", 0x07),
    ("colupf", 0x08),
    ("colubk", 0x09),
];

/// The first bytes of the colour registers, two of them odd.
const BYTES: [u8; 4] = [0x1F, 0x4A, 0x87, 0xC2];

/// CTRLPF bits 1 and 2 with their names.
const PRIORITIES: [(&str, u8); 4] = [
    ("bits_1_and_2_clear", 0b000),
    ("bit_1_alone", 0b010),
    ("bit_2_alone", 0b100),
    ("bits_1_and_2_set", 0b110),
];

/// Clocks at the edges of the line, of the columns and of their halves.
const EDGES: [u8; 12] = [0, 67, 68, 69, 75, 76, 146, 147, 148, 149, 226, 227];

/// The clocks from which on all objects are strobed, so that they overlap in a column: left, right.
const STROBES: [(&str, u8, usize); 2] = [("left", 100, 42), ("right", 180, 122)];

/// Unknown addresses next to known ones, and the last.
const UNKNOWN: [u8; 9] = [0x00, 0x03, 0x15, 0x1A, 0x28, 0x29, 0x2D, 0x7F, 0xFF];

/// The tapes.
pub fn tapes() -> Tapes {
    let mut tapes = Tapes::new();
    let mut add = |name: String, lines: &[Writes]| tapes.push((name, tape_of_writes(lines)));
    for (with, bits) in PRIORITIES {
        for (side, first, _) in STROBES {
            let name = format!("colours_{with}_all_combinations_{side}");
            add(name, &combinations(bits, first));
        }
        for (name, address) in COLOURS {
            let lines = rewritten(bits, address, EDGES.map(|clock| (clock, clock + 16)));
            add(format!("colours_{with}_{name}_rewritten"), &lines);
        }
        let bytes = PRIORITIES.repeat(3).into_iter().map(|(_, bits)| bits);
        let clocks: Vec<(u8, u8)> = EDGES.into_iter().zip(bytes).collect();
        let lines = rewritten(bits, 0x0A, clocks);
        add(format!("colours_{with}_ctrlpf_rewritten"), &lines);
        add(format!("colours_{with}_blank_columns"), &blanked(bits));
    }
    let every_clock = |address| {
        (0..228_u8)
            .map(|n| (n, address, n.wrapping_mul(7)))
            .collect()
    };
    for (name, address) in COLOURS {
        let lines = [lit_field(0b010), every_clock(address), vec![]];
        add(format!("colours_{name}_at_every_clock"), &lines);
    }
    let known: Writes = (0x04..=0x14).map(|n| (2 * n, n, 0x35 + 3 * n)).collect();
    add("registers_04_to_14".into(), &[known.clone(), vec![]]);
    for address in UNKNOWN {
        let borders = [0x05, 0x06, 0x09, 0x0A, address].into_iter();
        let bad: Writes = (70..).zip(borders).map(|(n, at)| (n, at, 0xA9)).collect();
        let name = format!("refused_7_register_{address:02X}_after_05_06_09_0A");
        add(name, &[known.clone(), bad, vec![]]);
    }
    for (fault, bad) in [(5, (228, 0x09, 0)), (6, (90, 0x09, 0)), (7, (91, 0x28, 0))] {
        let line = vec![(80, 0x06, 0x35), (90, 0x09, 0x77), bad];
        let name = format!("refused_{fault}_after_colours_in_its_line");
        add(name, &[lit_field(0), line, vec![]]);
    }
    tapes
}

/// The writes that set the colours, and CTRLPF with these bits and the ball eight columns wide.
fn coloured(bits: u8) -> Writes {
    let colours = COLOURS.iter().zip(BYTES).zip(10..);
    let mut writes: Writes = colours.map(|((to, byte), n)| (n, to.1, byte)).collect();
    writes.push((14, 0x0A, 0x30 | bits));
    writes
}

/// A line that makes an object or the playfield show, or not.
fn shown_or_dark(object: usize, shown: bool) -> Writes {
    let mut writes = showing_writes(object, true);
    if !shown {
        writes[0].2 = 0;
    }
    writes.retain(|write| write.1 != 0x0A);
    writes
}

/// All objects strobed from a clock on, then for each combination of objects and playfield a line
/// that lights just these.
fn combinations(bits: u8, first: u8) -> Vec<Writes> {
    let mut strobes = coloured(bits);
    strobes.extend([P0, P1, M0, M1, BL].map(|object| strobe(object, first + object as u8)));
    let mut lines = vec![strobes];
    for combination in 0..64 {
        let objects = [P0, P1, M0, M1, BL, PF].into_iter();
        let writes = objects.flat_map(|n| shown_or_dark(n, combination >> n & 1 == 1));
        lines.push(writes.collect());
    }
    lines
}

/// A line that sets the colours and lights the playfield but for columns 16 to 47 and 96 to 127.
fn lit_field(bits: u8) -> Writes {
    let mut writes = coloured(bits);
    writes.extend([(15, 0x0D, 255), (16, 0x0F, 255)]);
    writes
}

/// The playfield lit, then for each clock and byte a line that writes the byte to the address there,
/// and a last one without writes.
fn rewritten(bits: u8, address: u8, at: impl IntoIterator<Item = (u8, u8)>) -> Vec<Writes> {
    let mut lines = vec![lit_field(bits)];
    let writes = at.into_iter();
    lines.extend(writes.map(|(clock, byte)| vec![(clock, address, byte)]));
    lines.push(vec![]);
    lines
}

/// The playfield lit and eight columns blank; nothing lit and eight columns blank; the colours
/// written while they are blank; and each time a line after it.
fn blanked(bits: u8) -> Vec<Writes> {
    let hmove = (9, 0x2A, 0);
    let dark = vec![(0, 0x0D, 0), hmove, (20, 0x0F, 0)];
    let within = vec![hmove, (70, 0x09, 0x55), (71, 0x06, 0x33), (72, 0x0D, 255)];
    let lit = vec![hmove];
    vec![lit_field(bits), lit, vec![], dark, vec![], within, vec![]]
}

#[cfg(test)]
mod tests {
    use super::*;
    use crate::model::replay::replay;

    #[test]
    fn each_combination_is_lit_in_its_column() {
        for (_, first, column) in STROBES {
            let replay = replay(&tape_of_writes(&combinations(0, first)));
            assert!(replay.end.is_ok());
            let shown = replay.lines.iter().skip(1).map(|line| line.objects[column]);
            assert!(shown.eq(0..64));
        }
    }

    #[test]
    fn the_combinations_show_every_colour() {
        for (_, bits) in PRIORITIES {
            let lines = replay(&tape_of_writes(&combinations(bits, 100))).lines;
            for byte in BYTES.map(|byte| byte & 0xFE) {
                assert!(lines.iter().any(|line| line.colours[42] == byte));
            }
        }
    }
}
