//! The test tapes for stretched players: each bit of the graphic at each size, NUSIZ written at every
//! clock of a copy and of a line, strobes within a copy, copies that cross the end of a line, with and
//! without an HMOVE there.

use crate::model::drawing::first_age;
use crate::model::object::{NAMES, P0, P1};
use crate::tapes::shown_tapes::{strobe, tape_of_writes, Writes};
use crate::tapes::test_tapes::Tapes;

/// The sizes with copies that give them.
const SIZES: [(u8, u8); 3] = [(1, 0), (2, 5), (4, 7)];

/// The clock of the strobe, and so of the start of the main copy in each later line.
const STROBE: u8 = 100;

/// A graphic in which each bit but two differs from the next.
const STRIPES: u8 = 0b1010_0101;

/// For each player the half bytes with which it is moved while its copy crosses the end of the line.
const HALF_BYTES: [[u8; 2]; 2] = [[0, 7], [8, 15]];

/// The tapes.
pub fn tapes() -> Tapes {
    let mut tapes = Tapes::new();
    let mut add = |name: String, lines: &[Writes]| {
        tapes.push((format!("stretched_{name}"), tape_of_writes(lines)));
    };
    for (name, nusiz, later) in examples() {
        let strobed = vec![(0, 0x1B, 255), (1, 0x04, nusiz), strobe(P0, STROBE)];
        add(format!("example_{name}"), &[strobed, later, vec![]]);
    }
    for player in [P0, P1] {
        let of = NAMES[player].to_lowercase();
        for (size, copies) in SIZES {
            let name = format!("{of}_size_{size}");
            add(format!("{name}_each_bit"), &each_bit(player, copies));
            add(
                format!("{name}_strobe_at_every_clock"),
                &strobed_within(player, copies),
            );
            for (other, written) in SIZES.into_iter().filter(|row| row.0 != size) {
                let name = format!("{name}_to_{other}_at_every_clock");
                add(name, &rewritten(player, copies, written));
            }
            for half_byte in HALF_BYTES[player] {
                let name = format!("{name}_over_the_line_end_half_byte_{half_byte}");
                add(name, &over_the_line_end(player, size, copies, half_byte));
            }
        }
        for copies in [1, 2, 3, 4, 6] {
            let name = format!("{of}_copies_7_to_{copies}_at_every_clock");
            add(name, &rewritten(player, 7, copies));
        }
        add(
            format!("{of}_nusiz_at_every_clock_of_a_line"),
            &every_clock(player),
        );
    }
    tapes
}

/// P0, strobed at clock 100, with a full graphic: the name, NUSIZ, and the writes of the next line.
fn examples() -> [(&'static str, u8, Writes); 4] {
    [
        ("size_2", 5, vec![]),
        ("size_4", 7, vec![]),
        ("size_4_nusiz_0_at_116", 7, vec![(116, 0x04, 0)]),
        ("copies_7_nusiz_3_at_110", 7, vec![(110, 0x04, 3)]),
    ]
}

/// The address of a player's register, from that of P0.
fn of(player: usize, address: u8) -> u8 {
    address + player as u8
}

/// A line that gives a player a graphic and copies and strobes it at a clock.
fn shown(player: usize, graphic: u8, copies: u8, clock: u8) -> Writes {
    let mut line = vec![
        (0, of(player, 0x1B), graphic),
        (1, of(player, 0x04), copies),
    ];
    line.push(strobe(player, clock));
    line
}

/// Each bit of the graphic alone, then each reflected.
fn each_bit(player: usize, copies: u8) -> Vec<Writes> {
    let mut lines = vec![shown(player, 0, copies, STROBE)];
    for reflected in [0, 8] {
        for bit in 0..8_u8 {
            let graphic = 1 << bit;
            lines.push(vec![
                (0, of(player, 0x0B), reflected),
                (1, of(player, 0x1B), graphic),
            ]);
        }
    }
    lines
}

/// A line for each clock from the one before a copy's start on until it is over: NUSIZ is the first
/// copies as the line begins and the second from that clock on.
fn rewritten(player: usize, first: u8, second: u8) -> Vec<Writes> {
    let nusiz = of(player, 0x04);
    let mut lines = vec![shown(player, STRIPES, first, STROBE)];
    for clock in STROBE - 1..=STROBE + 6 + 32 {
        lines.push(vec![(0, nusiz, first), (clock, nusiz, second)]);
    }
    lines.push(vec![]);
    lines
}

/// For each clock from the one before a copy's start on until it is over a line in which the player is
/// strobed there, and two that take it back to its first place.
fn strobed_within(player: usize, copies: u8) -> Vec<Writes> {
    let again = shown(player, STRIPES, copies, STROBE);
    let mut lines = vec![again.clone(), vec![]];
    for clock in STROBE - 1..=STROBE + 6 + 32 {
        lines.extend([vec![strobe(player, clock)], again.clone(), vec![]]);
    }
    lines
}

/// The clocks of strobes after which the copy in the next line is at each of its pixels as that line
/// ends, having shown it for one clock or more.
fn late_strobes(size: u8) -> Vec<u8> {
    let age = |pixel| first_age(size) + pixel * size + pixel % size;
    (0..8).map(|pixel| 227 - age(pixel)).collect()
}

/// A player whose copies cross the end of the line: without a write, with an HMOVE at 9, with one at 0,
/// with one late in the line before, and with NUSIZ written in the next line's blank.
fn over_the_line_end(player: usize, size: u8, copies: u8, half_byte: u8) -> Vec<Writes> {
    let other = if copies == 7 { 0 } else { 7 };
    let mut lines = vec![vec![(0, of(player, 0x20), half_byte << 4)]];
    for clock in late_strobes(size) {
        lines.extend([shown(player, STRIPES, copies, clock), vec![], vec![]]);
        lines.extend([vec![(9, 0x2A, 0)], vec![], vec![(0, 0x2A, 0)], vec![]]);
        lines.extend([vec![(226, 0x2A, 0)], vec![]]);
        lines.push(vec![(9, 0x2A, 0), (20, of(player, 0x04), other)]);
        lines.push(vec![(67, of(player, 0x04), copies)]);
    }
    lines
}

/// Lines in which NUSIZ is written at every clock, each of the sizes by turns, for one clock, for two
/// and for three.
fn every_clock(player: usize) -> Vec<Writes> {
    let mut lines = vec![shown(player, STRIPES, 7, STROBE), vec![]];
    for clocks in 1..=3 {
        let copies = |clock: u8| SIZES[usize::from(clock / clocks % 3)].1;
        let write = |clock| (clock, of(player, 0x04), copies(clock));
        lines.push((0..228).map(write).collect());
    }
    lines.push(vec![]);
    lines
}

#[cfg(test)]
mod tests {
    use super::*;
    use crate::model::first_lit::{first_lit, shows};
    use crate::model::replay::replay;

    #[test]
    fn each_bit_is_seen_in_its_columns() {
        for (player, (size, copies)) in SIZES.into_iter().flat_map(|row| [(P0, row), (P1, row)]) {
            let lines = replay(&tape_of_writes(&each_bit(player, copies))).lines;
            let main = if size == 1 { 37 } else { 38 };
            let pixels = (0..8).rev().chain(0..8);
            assert_eq!(lines.len(), 17);
            for (line, pixel) in lines.iter().skip(1).zip(pixels) {
                let lit = line
                    .objects
                    .iter()
                    .filter(|byte| shows(**byte, player as u8));
                assert_eq!(lit.count(), usize::from(size));
                let first = first_lit(&line.objects, player as u8);
                assert_eq!(first, Ok(Some(main + pixel * usize::from(size))));
            }
        }
    }

    #[test]
    fn lines_of_a_tape_differ_with_the_clock_of_the_write() {
        for (first, second) in [(0, 5), (0, 7), (5, 0), (5, 7), (7, 0), (7, 5), (7, 3)] {
            let lines = replay(&tape_of_writes(&rewritten(P1, first, second))).lines;
            let mut pictures: Vec<_> = lines.iter().map(|line| line.objects).collect();
            pictures.sort_unstable();
            pictures.dedup();
            assert!(pictures.len() > 6);
        }
    }

    #[test]
    fn copies_are_at_each_pixel_as_a_line_ends() {
        for (size, copies) in SIZES {
            let lines = over_the_line_end(P0, size, copies, 7);
            let of_one = (lines.len() - 1) / 8;
            for pixel in 0..8 {
                let strobed_and_next = 1 + pixel * of_one + 2;
                let replay = replay(&tape_of_writes(&lines[..strobed_and_next]));
                let expected = (pixel as u8, pixel as u8 % size + 1);
                let drawing = replay.end.unwrap().drawings[P0];
                assert_eq!((drawing.pixel, drawing.shown), expected);
            }
        }
    }
}
