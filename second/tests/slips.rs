//! The slips that the paper has seen, each of them not made here.

use crate::cases::build_tapes::tape_of;
use crate::model::latches::read_out;
use crate::model::listing::listing;
use crate::model::object::{M0, P0, P1};
use crate::tests::playing::{columns, play};

/// The columns of missile 0, brought to column 36, after so many lines with HMOVE at a clock and
/// this half byte.
fn columns_moved(hmove: u8, half_byte: u8, times: usize) -> Vec<usize> {
    let mut lists = vec![vec![0, 0x1D, 2, 100, 0x12, 0]];
    lists.extend(vec![vec![0, 0x22, half_byte << 4, hmove, 0x2A, 0]; times]);
    lists.extend([vec![], vec![]]);
    columns(&play(&lists), M0).remove(times + 2)
}

// "The half byte read as 0 to 15, or its remainder modulo 160 taken before the sign is put back."
#[test]
fn half_bytes_8_to_15_move_right_and_columns_go_round_at_both_ends() {
    // Half byte, number of lines with it, column after them.
    let mut rows = vec![
        (7, 6, 154),  // 36 - 42 = -6
        (7, 30, 146), // 36 - 210 = -174
        (8, 16, 4),   // 36 + 128 = 164
        (8, 30, 116), // 36 + 240 = 276
        (15, 123, 159),
        (15, 124, 0),
        (1, 36, 0),
        (1, 37, 159),
    ];
    rows.extend((0..8).map(|value| (value, 1, 36 - usize::from(value))));
    rows.extend((8..16).map(|value| (value, 1, 52 - usize::from(value))));
    for (half_byte, times, column) in rows {
        assert_eq!(columns_moved(9, half_byte, times), [column]);
    }
}

// "An extra pulse added to a visible pulse."
#[test]
fn extra_pulses_on_visible_clocks_move_nothing() {
    for hmove in 68..=163 {
        for half_byte in [0, 7, 8, 15] {
            assert_eq!(columns_moved(hmove, half_byte, 1), [36]);
        }
    }
}

// "A strobe treated as a start, so a player's main copy shows a line early."
#[test]
fn a_strobe_shows_no_main_copy_on_its_line() {
    let objects = [(P0, 0x1B, 5), (P1, 0x1C, 5), (M0, 0x1D, 4)];
    for (strobe, (object, shown_by, first)) in
        (68..=227).flat_map(|strobe| objects.map(|object| (strobe, object)))
    {
        let strobed = vec![0, shown_by, 255, strobe, 0x10 + object as u8, 0];
        let shown = columns(&play(&[strobed, vec![], vec![]]), object);
        let column = (usize::from(strobe) - 68 + first) % 160;
        assert!(shown[0].is_empty() && shown[2].contains(&column));
    }
}

// "Latches set under the eight blanked columns."
#[test]
fn blanked_columns_set_no_latch() {
    // Missile 0 at column 3, the playfield lit in columns 0 to 7 alone.
    let strobed = vec![0, 0x1D, 2, 30, 0x12, 0];
    let lit = vec![0, 0x0D, 0x30, 80, 0x0D, 0];
    let blanked = vec![0, 0x0D, 0x30, 9, 0x2A, 0, 80, 0x0D, 0];
    for (list, fifth) in [(lit, 0x80), (blanked, 0x00)] {
        let lists = [strobed.clone(), list];
        let latches = read_out(&play(&lists)[1].state);
        assert_eq!(latches, Ok([0, 0, 0, 0, fifth, 0, 0, 0]));
        let cx = format!("cx 00 00 00 00 {fifth:02X} 00 00 00\n");
        assert!(listing(&tape_of(&lists)).ends_with(&cx));
    }
}
