//! Tests of what is lit: steps 8, with request Two, and 9.

use crate::model::lit::lit;
use crate::model::object::{BL, M0, M1, P0, P1, PF};
use crate::model::state::State;

/// The ages at which an object of this state is lit.
fn ages_lit(state: &State, object: usize) -> Vec<u8> {
    let mut state = *state;
    let mut is_lit = |age: u8| {
        state.objects[object].age = age;
        lit(&state)[object]
    };
    (0..=64).filter(|&age| is_lit(age)).collect()
}

/// So many numbers from a first one on.
fn from(first: u8, number: u8) -> Vec<u8> {
    (first..first + number).collect()
}

/// The pixels at which a player of this state is lit.
fn pixels_lit(state: &State, player: usize) -> Vec<u8> {
    let mut state = *state;
    let mut is_lit = |pixel: u8| {
        state.drawings[player].pixel = pixel;
        lit(&state)[player]
    };
    (0..=8).filter(|&pixel| is_lit(pixel)).collect()
}

// "Showing bit ... from bit 7 down, or from bit 0 up when reflected, of the new graphic, or the old
// with VDELP." Two: the pixel is "0 to 8 (8: none)". Settled: lit exactly if the pixel is below 8 and
// the graphic's bit is set, whatever age, size and clocks shown are.
#[test]
fn a_player_shows_the_bit_of_its_graphic_for_its_pixel() {
    let any = [1, 2, 4]
        .into_iter()
        .flat_map(|size| [(size, 5), (size, 64), (size, 0)]);
    for (player, (size, age)) in any.flat_map(|any| [(P0, any), (P1, any)]) {
        let mut state = State::START;
        state.sizes[player] = size;
        state.objects[player].age = age;
        state.drawings[player].shown = 4 - size;
        state.registers.grp_new[player] = 255;
        assert_eq!(pixels_lit(&state, player), from(0, 8));
        assert_eq!(pixels_lit(&state, 1 - player), []);
        state.registers.vdelp[1 - player] = true;
        for bit in 0..8 {
            state.registers.grp_new[player] = 1 << bit;
            state.registers.refp = [player == P1, player == P0];
            assert_eq!(pixels_lit(&state, player), [7 - bit]);
            state.registers.refp[player] = true;
            assert_eq!(pixels_lit(&state, player), [bit]);
        }
        state.registers.grp_old[player] = 2;
        state.registers.vdelp[player] = true;
        assert_eq!(pixels_lit(&state, player), [1]);
    }
}

// "Missile and ball at ages 4 to 3 + width when enabled"; widths 1, 2, 4, 8 by NUSIZ.
#[test]
fn a_missile_has_its_own_width_and_enable() {
    for (n, missile) in [M0, M1].into_iter().enumerate() {
        for (code, width) in [(0, 1), (1, 2), (2, 4), (3, 8)] {
            let mut state = State::START;
            state.registers.width_codes[n] = code;
            state.registers.enam[1 - n] = true;
            assert_eq!(ages_lit(&state, missile), []);
            state.registers.enam[n] = true;
            assert_eq!(ages_lit(&state, missile), from(4, width));
        }
    }
}

// CTRLPF "bits 4-5 ball width as above"; "ball: old enable with VDELBL".
#[test]
fn the_ball_has_the_width_of_ctrlpf_and_the_enable_that_vdelbl_chooses() {
    for (ctrlpf, width) in [(0xCF, 1), (0x1F, 2), (0x20, 4), (0xF0, 8)] {
        for choice in 0..8 {
            let mut state = State::START;
            state.registers.ctrlpf = ctrlpf;
            state.registers.enabl_new = choice & 1 != 0;
            state.registers.enabl_old = choice & 2 != 0;
            state.registers.vdelbl = choice & 4 != 0;
            let enabled = [1, 3, 6, 7].contains(&choice);
            let ages = from(4, if enabled { width } else { 0 });
            assert_eq!(ages_lit(&state, BL), ages);
        }
    }
}

// "Playfield bit x / 4: 0-19 are PF0 bits 4 to 7, PF1 bits 7 to 0, PF2 bits 0 to 7; 20-39 repeat
// them, or run backwards when reflected." CTRLPF bit 0 alone reflects.
#[test]
fn each_playfield_bit_lights_its_four_columns_in_both_halves() {
    for bit in 0..20 {
        let mut state = State::START;
        match bit {
            0..=3 => state.registers.pf0 = [1, 2, 4, 8][usize::from(bit)],
            4..=11 => state.registers.pf1 = 0x80 >> (bit - 4),
            _ => state.registers.pf2 = 0x01 << (bit - 12),
        }
        for (ctrlpf, right) in [(0, 80 + 4 * bit), (0xFE, 80 + 4 * bit), (1, 156 - 4 * bit)] {
            state.registers.ctrlpf = ctrlpf;
            let is_lit = |&h: &u8| lit(&State { h, ..state })[PF];
            let columns: Vec<u8> = (0..228).filter(is_lit).map(|h| h - 68).collect();
            assert_eq!(columns, [from(4 * bit, 4), from(right, 4)].concat());
        }
    }
}
