//! The single clocks of the case file, group by group; good states, with a write or none, fill
//! their number up.

use crate::cases::build_lists::address_of;
use crate::cases::case::Single;
use crate::cases::chip_cases::Group;
use crate::cases::colour_writes::{
    kept_byte, set_colours, set_priority, write_changed_colour, COLOURS, DECIDING,
};
use crate::cases::drawing_writes::{is_for_drawing, write_changed_lit};
use crate::cases::drawings::{ages_that_show, copies_of_size, set_age};
use crate::cases::random::Random;
use crate::cases::random_lists::{known_address, unknown_addresses, write_to};
use crate::cases::random_states::{
    bad_state, edge_state, faulty_states, good_state, set_playfield,
};
use crate::cases::stretched_cases;
use crate::model::clock::{run, RegisterWrite};
use crate::model::latches::PAIRS;
use crate::model::object::{BL, M0, P0, P1, PF};
use crate::model::registers::{register_at, Register, KNOWN};
use crate::model::state::State;

/// The groups in their order.
pub const GROUPS: [Group<Single>; 18] = [
    addresses,
    drawing_registers,
    bad_states,
    hmoves,
    comparisons,
    starts,
    lit_edges,
    playfield,
    pairs,
    lit_combinations,
    colour_registers,
    blank_colours,
    stretched_cases::pixels,
    stretched_cases::beginnings,
    stretched_cases::starts,
    stretched_cases::rewritten,
    stretched_cases::strobes,
    stretched_cases::in_the_blank,
];

/// A single clock with a good state, and a write or none.
pub fn other(random: &Random) -> Single {
    Single {
        state: good_state(random),
        write: write_or_none(random),
    }
}

/// Adds a single clock.
fn push(singles: &mut Vec<Single>, state: State, write: Option<RegisterWrite>) {
    singles.push(Single { state, write });
}

/// No write, one time in four; otherwise a write of any value to any known register.
fn write_or_none(random: &Random) -> Option<RegisterWrite> {
    (!random.one_in(4)).then(|| write_to(random, known_address(random)))
}

/// A write of any value to a register.
pub fn write_of(random: &Random, register: Register) -> Option<RegisterWrite> {
    Some(write_to(random, address_of(register)))
}

/// A state drawn towards the edges, but on a visible clock.
pub fn visible_state(random: &Random) -> State {
    State {
        h: random.between(76, 227),
        ..edge_state(random)
    }
}

/// Gives an object an age, a player the drawing of its copy at it, and a position from which one clock
/// reaches no start.
fn set_apart(state: &mut State, object: usize, age: u8) {
    state.objects[object].position = 100;
    set_age(state, object, age);
}

/// Every known register eight times, every unknown address with a good state and with a bad one.
fn addresses(random: &Random, singles: &mut Vec<Single>) {
    for address in 0..=255 {
        let states: Vec<fn(&Random) -> State> = match register_at(address) {
            Some(_) => vec![edge_state; 8],
            None => vec![edge_state, bad_state],
        };
        for state in states {
            push(singles, state(random), Some(write_to(random, address)));
        }
    }
}

/// Every drawing register eight times, written on visible clocks on which all objects are at lit
/// ages and the write changes what is lit.
fn drawing_registers(random: &Random, singles: &mut Vec<Single>) {
    for (_, _, register) in KNOWN.repeat(8) {
        if is_for_drawing(register) {
            let mut draws = (0..100).map(|_| Single {
                state: lit_state(random),
                write: write_of(random, register),
            });
            singles.extend(draws.find(|single| {
                let done = run(&single.state, single.write);
                done.map_or(false, |done| write_changed_lit(&single.state, &done))
            }));
        }
    }
}

/// A visible clock that finds all objects at lit ages, the players' copies having kept their size,
/// whatever graphics and enables are.
fn lit_state(random: &Random) -> State {
    let mut state = visible_state(random);
    for object in 0..5 {
        let (first, last) = ages_that_show(&state, object);
        set_apart(&mut state, object, random.between(first - 1, last - 1));
    }
    for player in 0..2 {
        state.registers.copies[player] = copies_of_size(random, state.sizes[player]);
    }
    state
}

/// Each single fault of a state and states with one fault or more: without a write, with a known
/// register and with an unknown one.
fn bad_states(random: &Random, singles: &mut Vec<Single>) {
    let several = (0..20).map(|_| bad_state(random));
    for state in faulty_states(random, edge_state).into_iter().chain(several) {
        push(singles, state, None);
        for address in [known_address(random), random.pick(&unknown_addresses())] {
            push(singles, state, Some(write_to(random, address)));
        }
    }
}

/// HMOVE at the edges of its clocks, with motion under way and without.
fn hmoves(random: &Random, singles: &mut Vec<Single>) {
    for h in [0, 1, 4, 64, 66, 67, 68, 72, 75, 76, 100, 164, 227].repeat(3) {
        for late in [false, true] {
            let edge = edge_state(random);
            let state = State { h, late, ..edge };
            push(singles, state, write_of(random, Register::Hmove));
        }
    }
}

/// Comparing clocks, for each object and each half byte: one at which the comparison is equal,
/// one at any slot, two at which the written motion value decides, and two with HMCLR.
fn comparisons(random: &Random, singles: &mut Vec<Single>) {
    for object in 0..5 {
        for half_byte in 0..16 {
            let equal = comparing_state(random, object, half_byte);
            push(singles, equal, None);
            let slot = random.up_to(15);
            push(singles, State { slot, ..equal }, write_or_none(random));
            let other = (half_byte + random.between(1, 15)) % 16;
            for (held, written) in [(half_byte, other), (other, half_byte)] {
                let mut state = equal;
                state.objects[object].motion = held;
                let write = RegisterWrite {
                    address: address_of(Register::Motion(object)),
                    value: written << 4 | random.up_to(15),
                };
                push(singles, state, Some(write));
            }
            for slot in [equal.slot, 8] {
                let state = State { slot, ..equal };
                push(singles, state, write_of(random, Register::Hmclr));
            }
        }
    }
}

/// A comparing clock at which this object's comparison is equal with this half byte; half of
/// them below clock 76.
fn comparing_state(random: &Random, object: usize, half_byte: u8) -> State {
    let mut state = edge_state(random);
    let fours = if random.flag() { 18 } else { 56 };
    state.h = 4 * random.up_to(fours);
    for each in &mut state.objects {
        each.live = random.flag();
    }
    state.objects[object].live = true;
    state.objects[object].motion = half_byte;
    state.slot = state.objects[object].end_slot();
    state
}

/// Each position from which a pulse reaches 0, 16, 32 or 64, for each object with each copies: with
/// a pulse, with a strobe too, and, for players and missiles, with the copies written that clock.
fn starts(random: &Random, singles: &mut Vec<Single>) {
    for position in [159, 15, 31, 63] {
        for object in 0..5 {
            for copies in 0..8 {
                let mut state = pulsed_state(random, object, position);
                if object != BL {
                    let nusiz = RegisterWrite {
                        address: address_of(Register::Nusiz(object % 2)),
                        value: random.byte() & 0b1111_1000 | copies,
                    };
                    push(singles, state, Some(nusiz));
                    state.registers.copies[object % 2] = copies;
                }
                push(singles, state, None);
                push(singles, state, write_of(random, Register::Strobe(object)));
            }
        }
    }
}

/// A state in which an object at this position is pulsed on the next clock: on a visible clock,
/// or by an extra pulse in the blank.
pub fn pulsed_state(random: &Random, object: usize, position: u8) -> State {
    let mut state = visible_state(random);
    if random.flag() {
        let half_byte = random.up_to(15);
        state = comparing_state(random, object, half_byte);
        state.h = 4 * random.up_to(16);
        state.slot = (state.slot + random.between(1, 15)) % 16;
    }
    state.objects[object].position = position;
    state
}

/// Each object at each size or width, shown and not, on visible clocks that bring it to the edges
/// of its lit ages, just outside them, and between.
fn lit_edges(random: &Random, singles: &mut Vec<Single>) {
    for object in [P0, P1, P0, P1, 2, 3, BL] {
        for code in 0..4 {
            for (edge, shown) in (0..10).map(|n| (n / 2, n % 2 == 0)) {
                let mut state = visible_state(random);
                set_shape(random, &mut state, object, code, shown);
                let (first, last) = ages_that_show(&state, object);
                let between = random.between(first, last);
                let age = [first - 1, first, last, last + 1, between][edge];
                set_apart(&mut state, object, age - 1);
                push(singles, state, None);
            }
        }
    }
}

/// Gives an object a size or a width, and shows it or not: a missile or the ball by its enable, a
/// player by the outer bits of its graphic. The old one of graphic or enable differs from the new.
fn set_shape(random: &Random, state: &mut State, object: usize, code: u8, shown: bool) {
    let registers = &mut state.registers;
    let by_old = random.flag();
    let old_is_shown = by_old == shown;
    match object {
        P0 | P1 => {
            state.sizes[object] = [1, 2, 4, 4][usize::from(code)];
            registers.copies[object] = copies_of_size(random, state.sizes[object]);
            registers.refp[object] = random.flag();
            registers.vdelp[object] = by_old;
            let graphics = [random.byte() & 0b0111_1110, random.byte() | 0b1000_0001];
            registers.grp_old[object] = graphics[usize::from(old_is_shown)];
            registers.grp_new[object] = graphics[usize::from(!old_is_shown)];
        }
        BL => {
            registers.ctrlpf = registers.ctrlpf & 0b1100_1111 | code << 4;
            registers.vdelbl = by_old;
            registers.enabl_old = old_is_shown;
            registers.enabl_new = !old_is_shown;
        }
        missile => {
            registers.width_codes[missile - M0] = code;
            registers.enam[missile - M0] = shown;
        }
    }
}

/// Each of the 40 playfield bits, repeated and reflected: it alone set, and it alone clear.
fn playfield(random: &Random, singles: &mut Vec<Single>) {
    for bit in 0..40 {
        for (reflected, rest) in [(0, 0x00), (0, 0xFF), (1, 0x00), (1, 0xFF)] {
            let mut state = edge_state(random);
            state.h = 68 + 4 * bit + random.up_to(3);
            state.late = false;
            let left = match (bit, reflected) {
                (0..=19, _) => bit,
                (_, 0) => bit - 20,
                _ => 39 - bit,
            };
            set_playfield(&mut state.registers, rest);
            match left {
                0..=3 => state.registers.pf0 ^= 0x01 << left,
                4..=11 => state.registers.pf1 ^= 0x80 >> (left - 4),
                _ => state.registers.pf2 ^= 0x01 << (left - 12),
            }
            state.registers.ctrlpf = state.registers.ctrlpf & 0xFE | reflected;
            push(singles, state, None);
        }
    }
}

/// Each pair lit together: in an unblanked column with its latch clear, with CXCLR, and in a
/// blank column with its latch clear.
fn pairs(random: &Random, singles: &mut Vec<Single>) {
    for (latch, &(first, second)) in PAIRS.iter().enumerate() {
        for _ in 0..5 {
            let mut state = visible_state(random);
            make_lit(random, &mut state, first);
            make_lit(random, &mut state, second);
            push(singles, state, write_of(random, Register::Cxclr));
            state.latches[latch] = false;
            push(singles, state, None);
            state.h = random.between(68, 75);
            state.late = true;
            push(singles, state, None);
        }
    }
}

/// Makes an object or the playfield lit on the next clock, whether it is pulsed or not.
fn make_lit(random: &Random, state: &mut State, object: usize) {
    if object == PF {
        return set_playfield(&mut state.registers, 255);
    }
    let code = random.between(1, 3);
    set_shape(random, state, object, code, true);
    if object < M0 {
        state.registers.grp_new[object] = 255;
        state.registers.grp_old[object] = 255;
    }
    let (first, last) = ages_that_show(state, object);
    set_apart(state, object, random.between(first, last - 1));
}

/// Makes an object or the playfield dark on the next clock.
fn make_dark(state: &mut State, object: usize) {
    match object {
        PF => set_playfield(&mut state.registers, 0),
        _ => set_apart(state, object, 64),
    }
}

/// A visible clock at a column on which exactly these objects, a bit each, are lit, with these
/// CTRLPF bits 1 and 2 and colours that differ.
fn coloured_state(random: &Random, column: u8, lit: u8, bits: u8) -> State {
    let mut state = visible_state(random);
    state.h = 68 + column;
    state.late = false;
    for object in 0..6 {
        match lit >> object & 1 {
            0 => make_dark(&mut state, object),
            _ => make_lit(random, &mut state, object),
        }
    }
    set_priority(&mut state.registers, bits);
    set_colours(random, &mut state.registers);
    state
}

/// Each combination of lit objects with each of CTRLPF bits 1 and 2: in column 79, in column 80 and
/// in one on each side of them.
fn lit_combinations(random: &Random, singles: &mut Vec<Single>) {
    for lit in 0..64 {
        for bits in 0..4 {
            for column in [random.up_to(78), 79, 80, random.between(81, 159)] {
                push(singles, coloured_state(random, column, lit, bits), None);
            }
        }
    }
}

/// A state at a column with any objects lit and any CTRLPF bits 1 and 2.
fn any_coloured_state(random: &Random, column: u8) -> State {
    let lit = random.up_to(63) & random.up_to(63);
    coloured_state(random, column, lit, random.up_to(3))
}

/// Each colour register and CTRLPF written at columns at the edges and anywhere, on clocks on which
/// the write changes the colour; COLUP0 and COLUP1 written where the playfield takes one of them; and
/// each colour register rewritten in bit 0 alone on a clock whose colour it gives.
fn colour_registers(random: &Random, singles: &mut Vec<Single>) {
    for (_, register) in DECIDING.repeat(2) {
        for column in [0, 7, 8, 78, 79, 80, 81, 159, random.up_to(159)] {
            let mut draws = (0..100).map(|_| Single {
                state: any_coloured_state(random, column),
                write: write_of(random, register),
            });
            singles.extend(draws.find(|single| {
                let done = run(&single.state, single.write);
                done.map_or(false, |done| write_changed_colour(&single.state, &done))
            }));
        }
    }
    for column in [random.up_to(78), 79, 80, random.between(81, 159)] {
        for player in 0..2 {
            let state = coloured_state(random, column, 1 << PF, 0b01);
            push(singles, state, write_of(random, Register::Colup(player)));
        }
    }
    for (_, register) in COLOURS.repeat(2) {
        let mut draws = (0..100).map(|_| any_coloured_state(random, random.up_to(159)));
        let shown = |state: &State| {
            let byte = kept_byte(&state.registers, register) & 0b1111_1110;
            run(state, None).map_or(false, |done| done.colour == byte)
        };
        if let Some(state) = draws.find(shown) {
            let write = RegisterWrite {
                address: address_of(register),
                value: kept_byte(&state.registers, register) ^ 1,
            };
            push(singles, state, Some(write));
        }
    }
}

/// Colours that differ from 0 in the horizontal blank and in blank columns, with nothing lit and
/// with each object: without a write, and with a colour register or an unknown one written.
fn blank_colours(random: &Random, singles: &mut Vec<Single>) {
    for object in 0..=6 {
        for h in [random.up_to(66), 67, 68, 75, random.between(69, 74)] {
            let lit = if object < 6 { 1 << object } else { 0 };
            let mut state = coloured_state(random, 0, lit, random.up_to(3));
            state.h = h;
            state.late = h >= 68 || random.flag();
            push(singles, state, None);
            let (_, register) = random.pick(&COLOURS);
            push(singles, state, write_of(random, register));
            state.h = random.between(76, 227);
            let unknown = random.pick(&unknown_addresses());
            push(singles, state, Some(write_to(random, unknown)));
        }
    }
}
