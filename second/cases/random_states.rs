//! Random states: good ones drawn evenly, good ones drawn towards the edges of the rules, and
//! bad ones.

use crate::cases::drawings::{ages_that_show, edge_drawing};
use crate::cases::random::Random;
use crate::cases::state_fields::{checked_fields, from_bytes, to_bytes, FIELDS};
use crate::model::registers::Registers;
use crate::model::state::{State, NO_MOTION};
use std::array;

/// Clocks at the edges of the line, of the horizontal blank and of the blank columns.
const EDGE_CLOCKS: [u8; 12] = [0, 1, 66, 67, 68, 69, 74, 75, 76, 77, 226, 227];

/// Positions next to each start and at it.
const EDGE_POSITIONS: [u8; 12] = [158, 159, 0, 14, 15, 16, 30, 31, 32, 62, 63, 64];

/// A good state with each field drawn evenly from its range.
pub fn even_state(random: &Random) -> State {
    let mut state = from_bytes(&array::from_fn(|n| FIELDS[n].draw(random)));
    clear_live_flags_without_motion(&mut state);
    state
}

/// Makes the live flags of a state without motion false.
fn clear_live_flags_without_motion(state: &mut State) {
    for object in &mut state.objects {
        object.live &= state.slot != NO_MOTION;
    }
}

/// A good state drawn towards the edges: of the line, of the starts, of the lit ages, of the players'
/// pixels and of motion; objects are mostly lit or about to be.
pub fn edge_state(random: &Random) -> State {
    let mut state = even_state(random);
    state.h = match random.up_to(4) {
        0 => random.pick(&EDGE_CLOCKS),
        1 => 4 * random.up_to(56),
        2 | 3 => random.between(68, 227),
        _ => state.h,
    };
    light_registers(random, &mut state.registers);
    for n in 0..5 {
        if random.flag() {
            state.objects[n].position = random.pick(&EDGE_POSITIONS);
        }
        state.objects[n].age = edge_age(random, &state, n);
    }
    for player in 0..2 {
        state.drawings[player] = edge_drawing(random, &state, player);
    }
    draw_slot(random, &mut state);
    if random.one_in(3) {
        state.latches = [false; 15];
    }
    state
}

/// A good state, mostly drawn towards the edges, one in six evenly.
pub fn good_state(random: &Random) -> State {
    match random.one_in(6) {
        true => even_state(random),
        false => edge_state(random),
    }
}

/// Makes graphics full more often and enables set more often.
fn light_registers(random: &Random, registers: &mut Registers) {
    for graphic in registers.grp_new.iter_mut().chain(&mut registers.grp_old) {
        if random.one_in(3) {
            *graphic = 255;
        }
    }
    let ball = [&mut registers.enabl_new, &mut registers.enabl_old];
    for enable in registers.enam.iter_mut().chain(ball) {
        *enable |= random.flag();
    }
}

/// An age, most often one that is lit or next to those that are.
fn edge_age(random: &Random, state: &State, object: usize) -> u8 {
    let (first, last) = ages_that_show(state, object);
    match random.up_to(4) {
        0 | 1 => random.pick(&[first - 2, first - 1, first, last - 1, last, last + 1]),
        2 | 3 => random.between(first - 1, last),
        _ => random.pick(&[0, 1, 62, 63, 64]),
    }
}

/// Draws the slot: as it is, none under way, the first, the last, or one at which an object's
/// comparison is equal.
fn draw_slot(random: &Random, state: &mut State) {
    let object = &mut state.objects[random.index(5)];
    let equal = object.end_slot();
    state.slot = random.pick(&[state.slot, NO_MOTION, 0, 15, equal, equal]);
    object.live |= state.slot == equal;
    clear_live_flags_without_motion(state);
}

/// A good state with h = 0; every other time no motion is under way, at times the playfield is
/// dark.
pub fn line_start_state(random: &Random) -> State {
    let mut state = good_state(random);
    state.h = 0;
    if random.flag() {
        state = without_motion(&state);
    }
    if random.one_in(6) {
        set_playfield(&mut state.registers, 0);
    }
    state
}

/// Makes the playfield registers this byte: 0 darkens the playfield, 255 lights it.
pub fn set_playfield(registers: &mut Registers, byte: u8) {
    registers.pf0 = byte >> 4;
    registers.pf1 = byte;
    registers.pf2 = byte;
}

/// The state with no motion under way.
pub fn without_motion(state: &State) -> State {
    let mut state = *state;
    state.slot = NO_MOTION;
    clear_live_flags_without_motion(&mut state);
    state
}

/// The state with the byte of a field replaced.
fn with_field(state: &State, field: usize, byte: u8) -> State {
    let mut bytes = to_bytes(state);
    bytes[field] = byte;
    from_bytes(&bytes)
}

/// The state with no motion under way and then one live flag set.
fn with_live_flag(state: &State, object: usize) -> State {
    let mut state = without_motion(state);
    state.objects[object].live = true;
    state
}

/// A byte out of a checked field's range.
fn byte_beyond(random: &Random, field: usize) -> u8 {
    let beyond = |byte: &u8| !FIELDS[field].has(*byte);
    let bytes: Vec<u8> = (0..=255).filter(beyond).collect();
    random.pick(&bytes)
}

/// Each single fault of refusal 1, each time in another of these good states: each checked field
/// next to its range, at 255 and anywhere out of it, and three times each live flag with slot 16.
pub fn faulty_states(random: &Random, good: fn(&Random) -> State) -> Vec<State> {
    let mut states = Vec::new();
    for (n, field) in checked_fields() {
        for byte in [field.beyond(), vec![byte_beyond(random, n)]].concat() {
            states.push(with_field(&good(random), n, byte));
        }
    }
    for object in [0, 1, 2, 3, 4].repeat(3) {
        states.push(with_live_flag(&good(random), object));
    }
    states
}

/// The state with one fault of refusal 1, h being as it is.
pub fn with_fault(random: &Random, state: &State) -> State {
    if random.one_in(6) {
        return with_live_flag(state, random.index(5));
    }
    let but_h: Vec<usize> = checked_fields().map(|(n, _)| n).skip(1).collect();
    let field = random.pick(&but_h);
    with_field(state, field, byte_beyond(random, field))
}

/// A bad state: one to four faults, h out of range among them.
pub fn bad_state(random: &Random) -> State {
    let mut state = edge_state(random);
    for _ in 0..=random.up_to(2) {
        state = with_fault(random, &state);
    }
    if random.one_in(8) {
        state.h = byte_beyond(random, 0);
    }
    state
}
