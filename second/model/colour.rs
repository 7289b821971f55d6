//! The colour of a column: request One of document 02.

use crate::model::lit::is_set;
use crate::model::object::{BL, M0, M1, P0, P1, PF};
use crate::model::registers::Registers;

/// The first column of the right half.
const RIGHT_HALF: u8 = 80;

/// The colour of an unblanked column with these objects lit: that of the first that is lit, COLUBK
/// where nothing is. A colour's bit 0 is read as 0.
pub fn colour(registers: &Registers, lit: &[bool; 6], column: u8) -> u8 {
    let order = in_order(registers, lit, column);
    let first = order.iter().find(|(lit, _)| *lit);
    let register = first.map_or(registers.colubk, |&(_, colour)| colour);
    register & 0b1111_1110
}

/// What can be lit in a column, in the order in which the first wins: whether it is lit and the
/// register whose colour it takes. P0 and M0 take COLUP0, P1 and M1 COLUP1, ball and playfield
/// COLUPF; with CTRLPF bit 2 set, ball and playfield come first.
fn in_order(registers: &Registers, lit: &[bool; 6], column: u8) -> [(bool, u8); 6] {
    let p0 = (lit[P0], registers.colup[0]);
    let m0 = (lit[M0], registers.colup[0]);
    let p1 = (lit[P1], registers.colup[1]);
    let m1 = (lit[M1], registers.colup[1]);
    let bl = (lit[BL], registers.colupf);
    let pf = (lit[PF], playfield_colour(registers, column));
    if is_set(registers.ctrlpf, 2) {
        [bl, pf, p0, m0, p1, m1]
    } else {
        [p0, m0, p1, m1, bl, pf]
    }
}

/// The register whose colour the playfield takes: with CTRLPF bit 1 set and bit 2 clear COLUP0 in
/// columns 0 to 79 and COLUP1 from 80, else COLUPF.
fn playfield_colour(registers: &Registers, column: u8) -> u8 {
    if !is_set(registers.ctrlpf, 1) || is_set(registers.ctrlpf, 2) {
        registers.colupf
    } else if column < RIGHT_HALF {
        registers.colup[0]
    } else {
        registers.colup[1]
    }
}
