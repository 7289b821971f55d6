//! Tests of the state: "The chip's state" and refusal 1.

use crate::model::refusal::Refusal;
use crate::model::state::State;

/// Asserts that refusal 1 is given for a state after a change, unless it is good. Before the change
/// the state is odd but in range: the late flag and all latches set, with ages 64 held sizes, a pixel
/// shown no clocks and no pixel with clocks shown.
fn assert_checked(change: impl Fn(&mut State), good: bool) {
    let mut state = State::START;
    state.late = true;
    state.latches = [true; 15];
    state.sizes = [4, 2];
    state.drawings[0].pixel = 7;
    state.drawings[1].shown = 3;
    change(&mut state);
    let refusal = Some(Refusal::without_record(1));
    assert_eq!(state.check().err(), refusal.filter(|_| !good));
}

/// A number of the state: how many there are of it, its greatest value, and how one is set.
type Field = (usize, u8, fn(&mut State, usize, u8));

// 1: "a state field is outside its range". One: "The four registers join the state with range 0 to
// 255". Two: "Each player's state gains the pixel, 0 to 8 (8: none), and its clocks shown, 0 to 4".
#[test]
fn each_number_is_good_exactly_within_its_range() {
    let fields: [Field; 14] = [
        (1, 227, |s, _, byte| s.h = byte),
        (5, 159, |s, n, byte| s.objects[n].position = byte),
        (5, 64, |s, n, byte| s.objects[n].age = byte),
        (5, 15, |s, n, byte| s.objects[n].motion = byte),
        (1, 16, |s, _, byte| s.slot = byte),
        (2, 7, |s, n, byte| s.registers.copies[n] = byte),
        (2, 3, |s, n, byte| s.registers.width_codes[n] = byte),
        (1, 15, |s, _, byte| s.registers.pf0 = byte),
        (1, 255, |s, _, byte| s.registers.ctrlpf = byte),
        (2, 255, |s, n, byte| s.registers.colup[n] = byte),
        (1, 255, |s, _, byte| s.registers.colupf = byte),
        (1, 255, |s, _, byte| s.registers.colubk = byte),
        (2, 8, |s, n, byte| s.drawings[n].pixel = byte),
        (2, 4, |s, n, byte| s.drawings[n].shown = byte),
    ];
    for byte in 0..=255 {
        for (count, most, set) in fields {
            for n in 0..count {
                assert_checked(|state| set(state, n, byte), byte <= most);
            }
        }
        for n in 0..2 {
            assert_checked(|state| state.sizes[n] = byte, [1, 2, 4].contains(&byte));
        }
    }
}

// 1: "or a live flag is set with slot 16".
#[test]
fn a_live_flag_needs_a_slot_below_16() {
    for (n, slot) in (0..5).flat_map(|n| (0..=16).map(move |slot| (n, slot))) {
        let live = |state: &mut State| {
            state.slot = slot;
            state.objects[n].live = true;
        };
        assert_checked(live, slot < 16);
    }
}
