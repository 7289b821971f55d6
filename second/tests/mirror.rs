//! Tests of document 02, request Three: a byte mirrored, and reflected players.

use crate::model::lit::lit;
use crate::model::mirror::mirrored;
use crate::model::object::{P0, P1};
use crate::model::state::State;
use crate::tests::playing::{columns, play, span, Played};

/// Copies with the first column of a player strobed at clock 100 and its columns a pixel.
const SIZES: [(u8, usize, usize); 3] = [(0, 37, 1), (5, 38, 2), (7, 38, 4)];

/// Each player with each of these.
fn players() -> impl Iterator<Item = (u8, (u8, usize, usize))> {
    let players = [0, 1].into_iter();
    players.flat_map(|player| SIZES.map(|size| (player, size)))
}

/// The value of REFP that makes a player reflected, or not.
fn refp(reflected: bool) -> u8 {
    u8::from(reflected) << 3
}

/// Writes at successive clocks, the first at this one.
fn writes_from(first: u8, writes: &[(u8, u8)]) -> Vec<u8> {
    let clocks = (first..).zip(writes);
    let records = clocks.map(|(clock, &(address, value))| [clock, address, value]);
    records.flatten().collect()
}

/// A line that shows a graphic in a player strobed at clock 100, over a playfield, both with colours:
/// its new graphic, or its old one with VDELP, the other graphic being the opposite in every bit.
fn opening(player: u8, graphic: u8, old: bool, copies: u8, reflected: bool) -> Vec<u8> {
    let other_player = 0x1C - player;
    let (first, second) = if old {
        (graphic, !graphic)
    } else {
        (!graphic, graphic)
    };
    let mut list = writes_from(
        0,
        &[
            (0x1B + player, first),
            (other_player, 0),
            (0x1B + player, second),
            (0x25 + player, u8::from(old)),
            (0x04 + player, copies),
            (0x0B + player, refp(reflected)),
            (0x0E, 0b1010_0110),
            (0x06 + player, 0x42),
            (0x08, 0x96),
            (0x09, 0x1E),
        ],
    );
    list.extend([100, 0x10 + player, 0]);
    list
}

/// Asserts that lines show the same: object bytes, colour bytes and latches.
fn assert_same(one: &[Played], other: &[Played]) {
    for (one, other) in one.iter().zip(other) {
        assert_eq!((one.bytes, one.colours), (other.bytes, other.colours));
        assert_eq!(one.state.latches, other.state.latches);
    }
}

// "Bit n of each entry is bit 7 - n of its index."
#[test]
fn bit_n_of_each_entry_is_bit_7_less_n_of_its_index() {
    let bits = |byte: u8| format!("{byte:08b}").into_bytes();
    for index in 0..=255 {
        // The leftmost bit is bit 7.
        let (entry, index) = (bits(mirrored(index)), bits(index));
        for n in 0..8 {
            assert_eq!(entry[7 - n], index[n]);
        }
    }
}

// "A table of 256 mirrored bytes": so each byte is the entry of its own entry, and stands in the table
// once. A byte is its own mirror if its left half mirrors its right half: 16 of them.
#[test]
fn a_byte_mirrored_twice_is_itself() {
    assert!((0..=255).all(|byte| mirrored(mirrored(byte)) == byte));
    let own = (0..=255).filter(|&byte| mirrored(byte) == byte);
    assert_eq!(own.count(), 16);
}

// "256 mirrored bytes": some reckoned by hand.
#[test]
fn some_entries_of_the_table() {
    let entries = [
        (0b0000_0000, 0b0000_0000),
        (0b1111_1111, 0b1111_1111),
        (0b0000_0001, 0b1000_0000),
        (0b1000_0000, 0b0000_0001),
        (0b0000_1111, 0b1111_0000),
        (0b1101_0000, 0b0000_1011),
        (0b0001_1110, 0b0111_1000),
        (0b0110_1010, 0b0101_0110),
        (0b1110_0001, 0b1000_0111),
        (0b1010_0101, 0b1010_0101),
        (0b0111_1111, 0b1111_1110),
    ];
    for (index, entry) in entries {
        assert_eq!(mirrored(index), entry);
    }
}

// "A reflected player is lit exactly as an unreflected one with the looked-up graphic." Settled: the
// graphic looked up is the one chosen, new or old.
#[test]
fn a_reflected_player_is_lit_as_an_unreflected_one_with_the_mirrored_graphic() {
    for (player, old) in [(P0, false), (P0, true), (P1, false), (P1, true)] {
        let state_with = |graphic: u8, reflected: bool, pixel: u8| {
            let mut state = State::START;
            let registers = &mut state.registers;
            registers.vdelp[player] = old;
            registers.refp[player] = reflected;
            registers.grp_new[player] = if old { !graphic } else { graphic };
            registers.grp_old[player] = if old { graphic } else { !graphic };
            state.drawings[player].pixel = pixel;
            state
        };
        for (graphic, pixel) in (0..=255).flat_map(|byte| (0..=8).map(move |pixel| (byte, pixel))) {
            let reflected = lit(&state_with(graphic, true, pixel));
            assert_eq!(reflected, lit(&state_with(mirrored(graphic), false, pixel)));
        }
    }
}

// The same over a line, with each size: "from bit 7 down, or from bit 0 up when reflected".
#[test]
fn the_pictures_of_a_reflected_player_and_of_the_mirrored_graphic_are_the_same() {
    // The pixels of 1101 0000 from bit 7 down, and from bit 0 up.
    let pixels = [(false, [0, 1, 3]), (true, [4, 6, 7])];
    for (player, (copies, first, width)) in players() {
        for (old, n) in [(false, 0), (false, 1), (true, 0), (true, 1)] {
            let (reflected, pixels) = pixels[n];
            let lines = |graphic, reflected| {
                let opening = opening(player, graphic, old, copies, reflected);
                play(&[opening, vec![], vec![]])
            };
            let played = lines(0b1101_0000, reflected);
            let columns_of = |pixel| span(first + pixel * width, first + pixel * width + width - 1);
            let expected = pixels.map(columns_of).concat();
            assert_eq!(columns(&played, usize::from(player))[1], expected);
            assert_same(&played, &lines(0b0000_1011, !reflected));
        }
    }
}

// "Graphic, reflection ... are read at this clock": REFP written at any clock of a copy counts from its
// own column on, of the mirrored graphic too.
#[test]
fn reflection_changed_within_a_copy_is_that_of_the_mirrored_graphic_too() {
    for (player, (copies, first, width)) in players() {
        for (old, reflected) in [(false, false), (false, true), (true, false), (true, true)] {
            for column in first - 1..=first + 8 * width {
                let lines = |graphic, reflected: bool| {
                    let opening = opening(player, graphic, old, copies, reflected);
                    let clock = 68 + column as u8;
                    play(&[opening, vec![clock, 0x0B + player, refp(!reflected)]])
                };
                let shown = |x: usize| {
                    let pixel = (x - first) / width;
                    if reflected == (x < column) {
                        [4, 6, 7].contains(&pixel)
                    } else {
                        [0, 1, 3].contains(&pixel)
                    }
                };
                let expected: Vec<usize> =
                    (first..first + 8 * width).filter(|&x| shown(x)).collect();
                let played = lines(0b1101_0000, reflected);
                assert_eq!(columns(&played, usize::from(player))[1], expected);
                assert_same(&played, &lines(0b0000_1011, !reflected));
            }
        }
    }
}

// "GRP1 ... copies P0's new into P0's old", and GRP0 P1's: the graphic changed so within a copy is that
// of the mirrored graphics too.
#[test]
fn graphics_changed_within_a_copy_are_those_of_the_mirrored_graphics_too() {
    for player in [0, 1] {
        let lines = |first: u8, second: u8, reflected| {
            let opening = opening(player, first, true, 7, reflected);
            let own = [70, 0x1B + player, second];
            play(&[opening, [own, [120, 0x1C - player, 9]].concat()])
        };
        // Pixels from column 38 on, four columns each; the second graphic is shown from column 52 on.
        let played = lines(0b1111_0000, 0b0001_1011, true);
        assert_eq!(columns(&played, usize::from(player))[1], span(52, 57));
        for (graphic, reflected) in (0..=255).flat_map(|byte| [(byte, false), (byte, true)]) {
            let of_mirrors = lines(0b0000_1111, mirrored(graphic), !reflected);
            assert_same(&lines(0b1111_0000, graphic, reflected), &of_mirrors);
        }
    }
}
