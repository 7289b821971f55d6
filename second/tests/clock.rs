//! Tests of one clock: refusals 1 and 7, then the steps in their order.

use crate::model::clock::clock;
use crate::model::drawing::Drawing;
use crate::model::latches::PAIRS;
use crate::model::object::{BL, M0, M1, P0, P1, PF};
use crate::model::registers::register_at;
use crate::model::state::State;
use crate::tests::playing::{at, done, to};

const HMOVE: u8 = 0x2A;
const HMCLR: u8 = 0x2B;
const CXCLR: u8 = 0x2C;

/// The start state at clock h with this slot and one object live with this motion value.
fn moving_at(h: u8, slot: u8, object: usize, motion: u8) -> State {
    let mut state = State { slot, ..at(h) };
    state.objects[object].live = true;
    state.objects[object].motion = motion;
    state
}

/// A state with all objects at this position and age.
fn placed(mut state: State, position: u8, age: u8) -> State {
    for object in &mut state.objects {
        object.position = position;
        object.age = age;
    }
    state
}

/// A state at clock h whose next clock, pulsed or not, lights all objects and the playfield.
pub fn all_lit(h: u8, late: bool) -> State {
    let mut state = placed(State { late, ..at(h) }, 100, 6);
    state.drawings = [Drawing { pixel: 1, shown: 1 }; 2];
    state.registers.grp_new = [0b1111_1001; 2];
    state.registers.enam = [true; 2];
    state.registers.enabl_new = true;
    state.registers.width_codes = [3; 2];
    state.registers.ctrlpf = 0x30;
    state.registers.pf0 = 15;
    state.registers.pf1 = 255;
    state.registers.pf2 = 255;
    state
}

// 1 before 7. A refusal "returns the given state ...; every other part of the answer is zero".
#[test]
fn a_bad_state_is_refused_before_an_unknown_register() {
    let answer = |state: &State, write| {
        let answer = clock(state, write);
        let bytes = [answer.byte, answer.colour];
        (answer.number, answer.record, bytes, answer.state)
    };
    for (h, bytes) in [(0, [128, 0]), (70, [64, 0])] {
        let mut good = all_lit(h, true);
        good.registers.colup = [0x35, 0x57];
        let bad = State { slot: 17, ..good };
        assert_eq!(answer(&bad, None), (1, 0, [0, 0], bad));
        for address in 0..=255 {
            assert_eq!(answer(&bad, to(address, 9)), (1, 0, [0, 0], bad));
            let answer = answer(&good, to(address, 255));
            match register_at(address) {
                Some(_) => assert_eq!((answer.0, answer.1, answer.2), (0, 0, bytes)),
                None => assert_eq!(answer, (7, 0, [0, 0], good)),
            }
        }
    }
}

// Step 1: "If h = 0 the late flag falls." Step 2: HMOVE "at clocks 0 to 67 raises the late flag";
// settled: later it neither raises nor lowers it. Step 3: "h below 68, or below 76 with the late
// flag". Step 10: "128 for h below 68; 64 for a blank column; otherwise bits 0 to 5 ... In an
// unblanked column every pair lit together sets its latch." Step 11: "227 going to 0".
#[test]
fn late_flag_blank_answer_byte_latches_and_h_at_every_clock() {
    for h in 0..228 {
        for (late, write, late_after, blank) in [
            (false, None, false, h < 68),
            (true, None, h != 0, h < 76),
            (true, to(HMCLR, 0), h != 0, h < 76),
            (false, to(HMOVE, 0), h < 68, h < 68),
            (true, to(HMOVE, 0), true, h < 76),
        ] {
            let done = done(&all_lit(h, late), write);
            assert_eq!((done.state.late, done.blank), (late_after, blank));
            assert_eq!(done.state.h, (h + 1) % 228);
            let of_column = if blank { 64 } else { 63 };
            assert_eq!(done.byte, if h < 68 { 128 } else { of_column });
            assert_eq!(done.state.latches, [!blank; 15]);
        }
    }
}

// Step 2: "HMOVE sets the slot to 0 and all live flags, also when motion is under way". Step 4: "if
// the slot is below 16, h is a multiple of 4 and HMOVE was not written ... the slot rises by one".
#[test]
fn comparisons_come_at_multiples_of_4_with_a_slot_below_16() {
    for (h, slot) in (0..228).flat_map(|h| (0..=16).map(move |slot| (h, slot))) {
        let mut state = State { slot, ..at(h) };
        state.objects[M0].motion = 8;
        let quiet = done(&state, None);
        let compared = slot < 16 && h % 4 == 0;
        assert_eq!(quiet.motion.compared, compared);
        assert_eq!(quiet.state.slot, slot + u8::from(compared));
        let moved = done(&state, to(HMOVE, 0));
        assert_eq!((moved.motion.compared, moved.state.slot), (false, 0));
        assert!(moved.state.objects.iter().all(|object| object.live));
    }
}

// Step 4: "compares the slot with 8 plus its signed motion value ... Equal: its flag falls, no
// pulse. Otherwise it gets an extra pulse. ... at 16 all flags fall." Others get none.
#[test]
fn equal_drops_the_flag_and_anything_else_pulses() {
    for (half_byte, slot) in (0..16).flat_map(|n| (0..16).map(move |slot| (n, slot))) {
        let done = done(&moving_at(20, slot, M0, half_byte), None);
        let signed = (i32::from(half_byte) + 8) % 16 - 8;
        let equal = i32::from(slot) == 8 + signed;
        assert_eq!(done.motion.equal[M0], equal);
        assert_eq!(done.state.objects[M0].live, !equal && slot < 15);
        let pulses = done.state.objects.map(|object| object.position);
        assert_eq!(pulses, [0, 0, u8::from(!equal), 0, 0]);
    }
}

// "Extra pulses for half bytes 0, 7, 8, 15: 8, 15, 0, 7." Settled: a comparison missed by a write
// under way gives sixteen, then all flags fall.
#[test]
fn bench_extra_pulses() {
    for (half_byte, later, pulses) in [(0, 0, 8), (7, 7, 15), (8, 8, 0), (15, 15, 7), (0, 8, 16)] {
        let mut state = at(0);
        state.objects[M1].motion = half_byte;
        while state.h < 68 {
            let write = match state.h {
                0 => to(HMOVE, 0),
                19 => to(0x23, later << 4),
                _ => None,
            };
            state = done(&state, write).state;
        }
        let moved = state.objects[M1];
        assert_eq!((moved.position, moved.live), (pulses, false));
        assert_eq!(state.slot, 16);
    }
}

// Step 2 stands before step 4: the value written on a comparing clock is compared.
#[test]
fn the_value_written_on_a_comparing_clock_is_compared() {
    for n in 0..5 {
        let address = 0x20 + n as u8;
        for (slot, motion, write, equal) in [
            (15, 0, None, false),
            (15, 0, to(address, 0x7F), true),
            (15, 0, to(address, 0x8F), false),
            (8, 3, None, false),
            (8, 3, to(HMCLR, 0xFF), true),
        ] {
            let motion = done(&moving_at(12, slot, n, motion), write).motion;
            assert_eq!((motion.equal[n], motion.extra[n]), (equal, !equal));
        }
    }
}

// Step 5: "An object is pulsed if the clock is not blank or it has an extra pulse; never twice."
// An extra pulse in the blank can reach a start.
#[test]
fn an_extra_pulse_moves_in_the_blank_and_is_lost_on_a_visible_clock() {
    for (h, late) in [(64, false), (68, false), (72, true), (76, true)] {
        let mut state = moving_at(h, 3, BL, 0);
        state.late = late;
        state.objects[BL].position = 159;
        let done = done(&state, None);
        assert!(done.motion.extra[BL] && done.started[BL]);
        assert_eq!(done.state.objects[BL].position, 0);
        assert_eq!(done.state.objects[M1].position, u8::from(!done.blank));
    }
}

// Step 6: position and age rise; "If the position so reached is a start, age becomes 0; a player
// then takes its size from NUSIZ", else the size is held; the starts and sizes of all copies.
#[test]
fn starts_sizes_and_ages_of_every_position_and_copies() {
    let further: [&[u8]; 8] = [&[], &[16], &[32], &[16, 32], &[64], &[], &[32, 64], &[]];
    let places = (0..160).flat_map(|position| [30, 62, 63, 64].map(|age| (position, age)));
    for (position, age) in places {
        for (copies, size) in [1, 1, 1, 1, 1, 2, 1, 4].into_iter().enumerate() {
            let mut state = placed(at(100), position, age);
            state.registers.copies = [copies as u8; 2];
            state.sizes = [2, 4];
            let done = done(&state, None);
            let reached = (position + 1) % 160;
            for (n, object) in done.state.objects.into_iter().enumerate() {
                let start = reached == 0 || n != BL && further[copies].contains(&reached);
                let age = if start { 0 } else { (age + 1).min(64) };
                assert_eq!(done.started[n], start);
                assert_eq!((object.position, object.age), (reached, age));
            }
            let taken = if done.started[P0] { [size; 2] } else { [2, 4] };
            assert_eq!(done.state.sizes, taken);
        }
    }
}

// Copies are those of the player's or missile's own NUSIZ, as written on this clock.
#[test]
fn copies_written_on_the_clock_of_a_start_count() {
    for (n, own, other, sizes) in [
        (P0, 4, 5, [4, 1]),
        (P1, 5, 4, [1, 4]),
        (M0, 4, 5, [1, 1]),
        (M1, 5, 4, [1, 1]),
    ] {
        let mut state = at(100);
        state.objects[n].position = 63;
        assert!(done(&state, to(own, 4)).started[n]);
        assert!(!done(&state, to(other, 4)).started[n]);
        state.objects[n].position = 159;
        assert_eq!(done(&state, to(own, 7)).state.sizes, sizes);
    }
}

// Step 7: "makes the position 0, pulse or not, and there is no start; age still follows the pulse.
// The ball's strobe also makes its age 0."
#[test]
fn a_strobe_makes_the_position_0_and_is_no_start() {
    // Clock, slot (0: with an extra pulse), age before and after.
    let cases = [
        (10, 16, 9, 9),
        (40, 0, 20, 21),
        (100, 16, 9, 10),
        (100, 16, 64, 64),
    ];
    for (h, slot, age, age_after) in cases {
        for (n, position) in (0..5).flat_map(|n| [(n, 15), (n, 50), (n, 159)]) {
            let mut state = moving_at(h, slot, n, 0);
            state.registers.copies = [1; 2];
            state.sizes = [4, 2];
            state.objects[n].live = slot == 0;
            state.objects[n].position = position;
            state.objects[n].age = age;
            let done = done(&state, to(0x10 + n as u8, 0xFF));
            let object = done.state.objects[n];
            let age = if n == BL { 0 } else { age_after };
            assert_eq!((object.position, object.age), (0, age));
            assert_eq!((done.started[n], done.state.sizes), (false, [4, 2]));
        }
    }
}

// Steps 8 and 9: graphic, VDEL, reflection, enable, width and playfield "are read at this clock,
// after step 2". Step 10: "bits 0 to 5 for P0, P1, M0, M1, BL, PF"; a pair of which one is unlit
// sets no latch.
#[test]
fn a_write_puts_out_its_own_object_at_once_and_no_latch_of_it_is_set() {
    let writes = [
        (P0, [(0x1B, 0), (0x25, 1), (0x0B, 8)]),
        (P1, [(0x1C, 0), (0x26, 1), (0x0C, 8)]),
        (M0, [(0x1D, 0), (0x04, 0), (0x04, 0x10)]),
        (M1, [(0x1E, 0), (0x05, 0), (0x05, 0x10)]),
        (BL, [(0x1F, 0), (0x27, 1), (0x0A, 0x10)]),
        (PF, [(0x0E, 0), (0x0E, 0xF7), (0x0E, 0x07)]),
    ];
    for (n, (address, value)) in writes
        .into_iter()
        .flat_map(|(n, writes)| writes.map(|write| (n, write)))
    {
        let done = done(&all_lit(100, false), to(address, value));
        assert_eq!(done.byte, 63 - (1 << n));
        let latches = PAIRS.map(|(first, second)| first != n && second != n);
        assert_eq!(done.state.latches, latches);
    }
}

// Step 2: "CXCLR clears all latches." Without it they stay.
#[test]
fn latches_stay_until_cxclr() {
    let mut state = at(100);
    state.latches = [true; 15];
    assert_eq!(done(&state, None).state.latches, [true; 15]);
    assert_eq!(done(&state, to(CXCLR, 0)).state.latches, [false; 15]);
}
