//! Steps 8, with request Two for the players, and 9: which of the players, missiles, ball and
//! playfield are lit at this clock.

use crate::model::drawing::NO_PIXEL;
use crate::model::object::{BL, M0, M1, P0, P1};
use crate::model::registers::Registers;
use crate::model::state::State;

/// Whether P0, P1, M0, M1, BL and PF are lit, by the pixels, ages and registers as they stand.
pub fn lit(state: &State) -> [bool; 6] {
    [
        player_lit(state, P0),
        player_lit(state, P1),
        missile_or_ball_lit(state, M0),
        missile_or_ball_lit(state, M1),
        missile_or_ball_lit(state, BL),
        playfield_lit(&state.registers, state.h),
    ]
}

/// Step 8, with request Two: whether a player is lit: the bit of its graphic for its pixel, from
/// bit 7 down, or from bit 0 up when reflected; at pixel 8 none.
fn player_lit(state: &State, player: usize) -> bool {
    let pixel = state.drawings[player].pixel;
    if pixel == NO_PIXEL {
        return false;
    }
    let bit = if state.registers.refp[player] {
        pixel
    } else {
        7 - pixel
    };
    is_set(graphic(&state.registers, player), bit)
}

/// Step 8: the graphic that a player shows: the new one, or the old with VDELP.
pub fn graphic(registers: &Registers, player: usize) -> u8 {
    if registers.vdelp[player] {
        registers.grp_old[player]
    } else {
        registers.grp_new[player]
    }
}

/// Step 8: the first and the last age at which a missile or the ball can be lit.
pub fn lit_ages(registers: &Registers, object: usize) -> (u8, u8) {
    (4, 3 + width(registers, object))
}

/// Step 8: whether a missile or the ball is at an age at which it can be lit.
pub fn at_lit_age(state: &State, object: usize) -> bool {
    let (first, last) = lit_ages(&state.registers, object);
    (first..=last).contains(&state.objects[object].age)
}

/// Step 8: whether a missile or the ball is lit.
fn missile_or_ball_lit(state: &State, object: usize) -> bool {
    enabled(&state.registers, object) && at_lit_age(state, object)
}

/// The width of a missile or the ball: 1, 2, 4 or 8.
pub fn width(registers: &Registers, object: usize) -> u8 {
    let code = match object {
        M0 => registers.width_codes[0],
        M1 => registers.width_codes[1],
        _ => (registers.ctrlpf & 0b0011_0000) >> 4,
    };
    1 << code
}

/// Whether a missile or the ball is enabled; the ball by its old enable with VDELBL.
pub fn enabled(registers: &Registers, object: usize) -> bool {
    match object {
        M0 => registers.enam[0],
        M1 => registers.enam[1],
        _ if registers.vdelbl => registers.enabl_old,
        _ => registers.enabl_new,
    }
}

/// Step 9: whether the playfield is lit at clock h; never before column 0.
fn playfield_lit(registers: &Registers, h: u8) -> bool {
    h >= 68 && playfield_bit(registers, (h - 68) / 4)
}

/// Step 9: playfield bit 0 to 39; 20 to 39 repeat bits 0 to 19, or run backwards when
/// reflected.
fn playfield_bit(registers: &Registers, bit: u8) -> bool {
    if bit < 20 {
        left_half_bit(registers, bit)
    } else if is_set(registers.ctrlpf, 0) {
        left_half_bit(registers, 39 - bit)
    } else {
        left_half_bit(registers, bit - 20)
    }
}

/// Step 9: playfield bit 0 to 19: PF0 bits 4 to 7 (bits 0 to 3 of the half byte), PF1 bits
/// 7 to 0, PF2 bits 0 to 7.
fn left_half_bit(registers: &Registers, bit: u8) -> bool {
    match bit {
        0..=3 => is_set(registers.pf0, bit),
        4..=11 => is_set(registers.pf1, 11 - bit),
        _ => is_set(registers.pf2, bit - 12),
    }
}

/// Whether bit 0 to 7 of a byte is 1.
pub fn is_set(byte: u8, bit: u8) -> bool {
    byte >> bit & 1 == 1
}
