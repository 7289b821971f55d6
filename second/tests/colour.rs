//! Tests of the colour: request One of document 02.

use crate::cases::build_tapes::tape_of;
use crate::model::clock::clock;
use crate::model::colour::colour;
use crate::model::object::{BL, M0, M1, P0, P1, PF};
use crate::model::registers::Registers;
use crate::model::replay::replay;
use crate::model::state::State;
use crate::tests::clock::all_lit;
use crate::tests::playing::{at, done, play, to};
use std::array;

/// The bytes of COLUP0, COLUP1, COLUPF and COLUBK in these tests, and what is read of them.
const BYTES: [u8; 4] = [0x11, 0x22, 0x43, 0x84];
const COLUP0: u8 = 0x10;
const COLUP1: u8 = 0x22;
const COLUPF: u8 = 0x42;
const COLUBK: u8 = 0x84;

/// CTRLPF bits.
const SCORE: u8 = 0b010;
const FIRST: u8 = 0b100;

/// The registers of the start state with these colours and this CTRLPF.
fn coloured(ctrlpf: u8) -> Registers {
    let [colup0, colup1, colupf, colubk] = BYTES;
    Registers {
        colup: [colup0, colup1],
        colupf,
        colubk,
        ctrlpf,
        ..Registers::START
    }
}

/// The colour of a column with this CTRLPF and these objects lit.
fn colour_of(ctrlpf: u8, objects: &[usize], column: u8) -> u8 {
    let lit = array::from_fn(|object| objects.contains(&object));
    colour(&coloured(ctrlpf), &lit, column)
}

/// The first writes of a line that sets the colours, and CTRLPF to this byte.
fn coloured_list(ctrlpf: u8) -> Vec<u8> {
    let colours = (0..4).flat_map(|n| [n, 0x06 + n, BYTES[usize::from(n)]]);
    colours.chain([4, 0x0A, ctrlpf]).collect()
}

/// All combinations of objects.
fn combinations() -> impl Iterator<Item = Vec<usize>> {
    (0..64).map(|bits| (0..6).filter(|object| bits >> object & 1 == 1).collect())
}

/// CTRLPF bytes with all the bits but 1 and 2 clear and set.
fn with_other_bits(bits: u8) -> [u8; 2] {
    [bits, bits | 0b1111_1001]
}

// "P0 and M0 take COLUP0, P1 and M1 COLUP1, ball and playfield COLUPF, nothing COLUBK; the first in
// that order wins."
#[test]
fn the_first_lit_in_the_order_gives_the_colour() {
    let order = [
        (P0, COLUP0),
        (M0, COLUP0),
        (P1, COLUP1),
        (M1, COLUP1),
        (BL, COLUPF),
        (PF, COLUPF),
    ];
    for objects in combinations() {
        let first = order.iter().find(|(object, _)| objects.contains(object));
        let expected = first.map_or(COLUBK, |first| first.1);
        for (ctrlpf, column) in with_other_bits(0)
            .map(|n| (n, 79))
            .into_iter()
            .chain([(0, 80)])
        {
            assert_eq!(colour_of(ctrlpf, &objects, column), expected);
        }
    }
    for (objects, expected) in [
        (&[P0, P1][..], COLUP0),
        (&[M0, P1], COLUP0),
        (&[M1, P0], COLUP0),
        (&[M1, BL, PF], COLUP1),
        (&[BL, PF], COLUPF),
        (&[], COLUBK),
    ] {
        assert_eq!(colour_of(0, objects, 0), expected);
    }
}

// "With CTRLPF bit 2 set, ball and playfield come first." Bit 1 then changes nothing: its rule is
// for "bit 1 set and bit 2 clear".
#[test]
fn with_bit_2_ball_and_playfield_come_first() {
    for (ctrlpf, column) in [FIRST, FIRST | SCORE]
        .into_iter()
        .flat_map(with_other_bits)
        .flat_map(|ctrlpf| [0, 79, 80, 159].map(|column| (ctrlpf, column)))
    {
        for objects in combinations() {
            let of_field = objects.contains(&BL) || objects.contains(&PF);
            let expected = match of_field {
                true => COLUPF,
                false => colour_of(0, &objects, column),
            };
            assert_eq!(colour_of(ctrlpf, &objects, column), expected);
        }
    }
}

// "With bit 1 set and bit 2 clear, the playfield takes COLUP0 in columns 0 to 79 and COLUP1 from 80,
// in its usual place, but a lit ball shows COLUPF over it."
#[test]
fn with_bit_1_alone_the_playfield_takes_the_players_colours() {
    for ctrlpf in with_other_bits(SCORE) {
        for column in 0..160 {
            let half = if column <= 79 { COLUP0 } else { COLUP1 };
            assert_eq!(colour_of(ctrlpf, &[PF], column), half);
            for objects in combinations().filter(|objects| objects != &[PF]) {
                let expected = colour_of(0, &objects, column);
                assert_eq!(colour_of(ctrlpf, &objects, column), expected);
            }
        }
    }
    // P1 stands over a playfield of COLUP0, P0 over one of COLUP1.
    assert_eq!(colour_of(SCORE, &[P1, PF], 79), COLUP1);
    assert_eq!(colour_of(SCORE, &[P0, PF], 80), COLUP0);
    assert_eq!(colour_of(SCORE, &[BL, PF], 79), COLUPF);
}

// The same over a line: "let a line fill a second lent buffer of 160 colour bytes beside the object
// bytes".
#[test]
fn a_line_with_the_playfield_lit_has_its_halves_and_its_background() {
    for (ctrlpf, left, right) in [
        (0, COLUPF, COLUPF),
        (SCORE, COLUP0, COLUP1),
        (FIRST, COLUPF, COLUPF),
        (FIRST | SCORE, COLUPF, COLUPF),
    ] {
        let mut list = coloured_list(ctrlpf);
        list.extend([5, 0x0D, 255, 6, 0x0F, 255]);
        let line = &play(&[list])[0];
        for (column, colour) in line.colours.into_iter().enumerate() {
            let expected = match (column % 80, column / 80) {
                (16..=47, _) => COLUBK,
                (_, 0) => left,
                _ => right,
            };
            assert_eq!(colour, expected, "column {column}");
        }
    }
}

// "A colour's bit 0 is read as 0", of all four registers.
#[test]
fn bit_0_of_every_colour_is_read_as_0() {
    for byte in 0..=255 {
        let mut registers = coloured(0);
        registers.colup = [byte; 2];
        registers.colupf = byte;
        registers.colubk = byte;
        for objects in combinations() {
            let lit = array::from_fn(|object| objects.contains(&object));
            assert_eq!(colour(&registers, &lit, 80), byte / 2 * 2);
        }
    }
}

// "A blank column is 0." Settled: the clock's answer gains the colour, 0 where nothing is shown, that
// is for h below 68 too; a refused clock has colour 0.
#[test]
fn blank_columns_and_the_horizontal_blank_are_0() {
    for (h, late) in (0..228).flat_map(|h| [(h, false), (h, true)]) {
        let blank = h < 68 || h < 76 && late && h != 0;
        for (mut state, visible) in [
            (all_lit(h, late), COLUP0),
            (State { late, ..at(h) }, COLUBK),
        ] {
            state.registers = Registers {
                colup: [BYTES[0], BYTES[1]],
                colupf: BYTES[2],
                colubk: BYTES[3],
                ..state.registers
            };
            let answer = clock(&state, None);
            assert_eq!(answer.colour, if blank { 0 } else { visible });
            let refused = clock(&state, to(0x15, 0));
            assert_eq!((refused.number, refused.colour), (7, 0));
            state.sizes[0] = 3;
            let refused = clock(&state, None);
            assert_eq!((refused.number, refused.colour), (1, 0));
        }
    }
    let mut list = coloured_list(0);
    list.extend([9, 0x2A, 0]);
    let colours = play(&[list])[0].colours;
    assert_eq!(colours[..8], [0; 8]);
    assert_eq!(colours[8..], [COLUBK; 152]);
}

// "Registers are read at the column's clock": after its write, CTRLPF and what is lit too.
#[test]
fn a_register_written_on_a_clock_colours_its_column() {
    let mut dark = at(100);
    dark.registers = coloured(0);
    let mut lit = all_lit(100, false);
    lit.registers.colup = [BYTES[0], BYTES[1]];
    lit.registers.colupf = BYTES[2];
    let mut field = dark;
    field.registers.pf1 = 255;
    let cases = [
        (dark, 0x09, 0x67, 0x66),
        (dark, 0x08, 0x67, COLUBK),
        (dark, 0x06, 0x67, COLUBK),
        (dark, 0x0E, 0xFF, COLUPF),
        (lit, 0x06, 0x67, 0x66),
        (lit, 0x07, 0x67, COLUP0),
        (lit, 0x0A, FIRST, COLUPF),
        (field, 0x08, 0x67, 0x66),
        (field, 0x0A, SCORE, COLUP0),
        (field, 0x0E, 0, COLUBK),
    ];
    for (state, address, value, expected) in cases {
        assert_eq!(done(&state, to(address, value)).colour, expected);
    }
    for clock in 68..228 {
        let column = usize::from(clock) - 68;
        let line = &play(&[vec![clock, 0x09, 0x67]])[0];
        assert_eq!(line.colours[..column], vec![0; column]);
        assert_eq!(line.colours[column..], vec![0x66; 160 - column]);
    }
}

// "The four registers join the state ... the written byte kept whole": it goes on from line to line,
// also over a tape.
#[test]
fn colours_go_on_from_line_to_line() {
    let first = [coloured_list(0), vec![5, 0x0D, 0x10]].concat();
    let lists = [first, vec![], vec![60, 0x08, 0x67], vec![]];
    let played = play(&lists);
    for (line, expected) in played.iter().zip([COLUPF, COLUPF, 0x66, 0x66]) {
        assert_eq!(line.colours[0], expected);
        assert_eq!(line.colours[4], COLUBK);
    }
    let registers = played[3].state.registers;
    assert_eq!(registers.colup, [BYTES[0], BYTES[1]]);
    assert_eq!((registers.colupf, registers.colubk), (0x67, BYTES[3]));
    let lines = replay(&tape_of(&lists)).lines;
    assert!(lines
        .iter()
        .map(|line| line.colours)
        .eq(played.iter().map(|line| line.colours)));
}

// "Demands 2 and 3 read as before on object bytes": colours change no object byte and nothing of the
// state but themselves.
#[test]
fn colours_change_no_object_byte() {
    let shown = vec![
        10, 0x1B, 255, 11, 0x1D, 2, 12, 0x0E, 0xA5, 30, 0x12, 0, 90, 0x10, 0,
    ];
    let plain = play(&[shown.clone(), vec![]]);
    let writes = (0..4).flat_map(|n| [200 + n, 0x06 + n, 0xFF]);
    let coloured = play(&[[coloured_list(0), shown].concat(), writes.collect()]);
    for (plain, coloured) in plain.iter().zip(&coloured) {
        assert_eq!(plain.bytes, coloured.bytes);
        let mut state = coloured.state;
        state.registers.colup = [0; 2];
        state.registers.colupf = 0;
        state.registers.colubk = 0;
        assert_eq!(plain.state, state);
        assert_eq!(plain.colours, [0; 160]);
    }
}
