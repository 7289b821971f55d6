//! One colour clock: refusals 1 and 7, then the eleven steps in the paper's order.

use crate::model::colour::colour;
use crate::model::drawing::Drawing;
use crate::model::latches::set_latches;
use crate::model::lit::lit;
use crate::model::object::{is_start, size_of_copies, BL, P0, P1};
use crate::model::refusal::Refusal;
use crate::model::registers::{register_at, Register};
use crate::model::state::{State, NO_MOTION};

/// A write: the register's address and the value.
#[derive(Clone, Copy, Debug, PartialEq, Eq)]
pub struct RegisterWrite {
    pub address: u8,
    pub value: u8,
}

/// The answer of a single clock; the number is 0 for an accepted one.
#[derive(Clone, Copy, Debug, PartialEq, Eq)]
pub struct Answer {
    pub number: u8,
    pub record: usize,
    pub byte: u8,
    pub colour: u8,
    pub state: State,
}

/// What an accepted clock did; objects in the order P0, P1, M0, M1, BL, for `lit` also PF.
#[derive(Clone, Copy, Debug, PartialEq, Eq)]
pub struct Done {
    /// The register written in step 2.
    pub register: Option<Register>,
    /// The state after steps 1 and 2.
    pub written: State,
    /// Step 3.
    pub blank: bool,
    /// Step 4.
    pub motion: Motion,
    /// Step 5: the objects that were pulsed.
    pub pulsed: [bool; 5],
    /// Step 6: the objects that had a start.
    pub started: [bool; 5],
    /// Steps 8 and 9.
    pub lit: [bool; 6],
    /// Step 10: the answer byte.
    pub byte: u8,
    /// Request One: the colour.
    pub colour: u8,
    /// The state after step 11.
    pub state: State,
}

/// Step 4: whether the clock compared, the objects found equal, those with an extra pulse.
#[derive(Clone, Copy, Debug, PartialEq, Eq)]
pub struct Motion {
    pub compared: bool,
    pub equal: [bool; 5],
    pub extra: [bool; 5],
}

/// The answer of a single clock with a write or none. Refuses (1) a bad state, then (7) an
/// unknown register: the answer is then the given state, byte 0 and colour 0.
pub fn clock(given: &State, write: Option<RegisterWrite>) -> Answer {
    match run(given, write) {
        Ok(done) => Answer {
            number: 0,
            record: 0,
            byte: done.byte,
            colour: done.colour,
            state: done.state,
        },
        Err(refusal) => Answer {
            number: refusal.number,
            record: refusal.record,
            byte: 0,
            colour: 0,
            state: *given,
        },
    }
}

/// What a clock with a write or none does. Refuses (1) a bad state, then (7) an unknown
/// register.
pub fn run(given: &State, write: Option<RegisterWrite>) -> Result<Done, Refusal> {
    given.check()?;
    let known = match write {
        None => None,
        Some(write) => match register_at(write.address) {
            Some(register) => Some((register, write.value)),
            None => return Err(Refusal::without_record(7)),
        },
    };
    Ok(steps(given, known))
}

/// The eleven steps from a good state.
fn steps(given: &State, write: Option<(Register, u8)>) -> Done {
    let mut state = *given;
    // Step 1.
    if state.h == 0 {
        state.late = false;
    }
    // Step 2.
    let register = write.map(|(register, _)| register);
    if let Some((register, value)) = write {
        write_register(&mut state, register, value);
    }
    let written = state;
    // Step 3.
    let blank = is_blank(&state);
    // Step 4.
    let motion = step_motion(&mut state, register == Some(Register::Hmove));
    // Step 5.
    let pulsed = motion.extra.map(|extra| !blank || extra);
    // Steps 6 and 7.
    let mut started = [false; 5];
    for object in 0..5 {
        let strobed = register == Some(Register::Strobe(object));
        started[object] = pulse_and_strobe(&mut state, object, pulsed[object], strobed);
    }
    // Steps 8 and 9.
    let lit = lit(&state);
    // Step 10.
    let byte = answer_byte(state.h, blank, &lit);
    let colour = answer_colour(&state, blank, &lit);
    if !blank {
        set_latches(&mut state.latches, &lit);
    }
    // Step 11.
    state.h = match state.h {
        227 => 0,
        h => h + 1,
    };
    Done {
        register,
        written,
        blank,
        motion,
        pulsed,
        started,
        lit,
        byte,
        colour,
        state,
    }
}

/// Step 2: a write to a known register. A position strobe acts in step 7.
fn write_register(state: &mut State, register: Register, value: u8) {
    match register {
        Register::Motion(object) => state.objects[object].motion = value >> 4,
        Register::Hmove => {
            state.slot = 0;
            for object in &mut state.objects {
                object.live = true;
            }
            if state.h <= 67 {
                state.late = true;
            }
        }
        Register::Hmclr => {
            for object in &mut state.objects {
                object.motion = 0;
            }
        }
        Register::Cxclr => state.latches = [false; 15],
        _ => state.registers.set(register, value),
    }
}

/// Step 3: whether the clock is blank.
fn is_blank(state: &State) -> bool {
    state.h < 68 || (state.h < 76 && state.late)
}

/// Step 4: the comparisons of this clock and the slot's rise.
fn step_motion(state: &mut State, hmove_written: bool) -> Motion {
    let mut motion = Motion {
        compared: state.slot < NO_MOTION && state.h % 4 == 0 && !hmove_written,
        equal: [false; 5],
        extra: [false; 5],
    };
    if !motion.compared {
        return motion;
    }
    for (n, object) in state.objects.iter_mut().enumerate() {
        if object.live {
            motion.equal[n] = state.slot == object.end_slot();
            motion.extra[n] = !motion.equal[n];
            object.live = motion.extra[n];
        }
    }
    state.slot += 1;
    if state.slot == NO_MOTION {
        for object in &mut state.objects {
            object.live = false;
        }
    }
    motion
}

/// Steps 6, with request Two, and 7 for one object; answers whether it had a start.
fn pulse_and_strobe(state: &mut State, n: usize, pulsed: bool, strobed: bool) -> bool {
    let mut started = false;
    // Step 6.
    if pulsed {
        state.objects[n] = state.objects[n].pulsed();
        let copies = state.registers.copies_of(n);
        started = !strobed && is_start(state.objects[n].position, copies);
    }
    if started {
        state.objects[n].age = 0;
    }
    if pulsed && (n == P0 || n == P1) {
        pulse_drawing(state, n, started);
    }
    // Step 7.
    if strobed {
        state.objects[n].position = 0;
        if n == BL {
            state.objects[n].age = 0;
        }
    }
    started
}

/// Step 6, with request Two: what a pulse, with a start or without, does to the copy that a player
/// draws. The size is read from NUSIZ now; at a start it is kept.
fn pulse_drawing(state: &mut State, player: usize, started: bool) {
    let size = size_of_copies(state.registers.copies[player]);
    if started {
        state.sizes[player] = size;
        state.drawings[player] = Drawing::NONE;
    } else {
        let (age, size_at_start) = (state.objects[player].age, state.sizes[player]);
        state.drawings[player] = state.drawings[player].pulsed(age, size_at_start, size);
    }
}

/// Request One: the colour, 0 in the horizontal blank and for a blank column.
fn answer_colour(state: &State, blank: bool, lit: &[bool; 6]) -> u8 {
    if blank {
        0
    } else {
        colour(&state.registers, lit, state.h - 68)
    }
}

/// Step 10: the answer byte.
fn answer_byte(h: u8, blank: bool, lit: &[bool; 6]) -> u8 {
    if h < 68 {
        return 128;
    }
    if blank {
        return 64;
    }
    let mut byte = 0;
    for (bit, &lit) in lit.iter().enumerate() {
        byte |= u8::from(lit) << bit;
    }
    byte
}
