//! Objects at ages at which they show, and players' drawings, for generated states.

use crate::cases::random::Random;
use crate::model::drawing::{first_age, Drawing};
use crate::model::lit::lit_ages;
use crate::model::object::{size_of_copies, P0, P1};
use crate::model::registers::Registers;
use crate::model::state::State;

/// The sizes of players.
pub const SIZES: [u8; 3] = [1, 2, 4];

/// The first and the last age at which an object can be lit: a player while its size stays the one
/// that it holds.
pub fn ages_that_show(state: &State, object: usize) -> (u8, u8) {
    match object {
        P0 | P1 => {
            let size = state.sizes[object];
            let first = first_age(size);
            (first, first + 8 * size - 1)
        }
        _ => lit_ages(&state.registers, object),
    }
}

/// The drawing at an age of a copy that has had one size from its start on.
pub fn drawing_at(age: u8, size: u8) -> Drawing {
    match age.checked_sub(first_age(size)) {
        Some(clocks) if clocks < 8 * size => Drawing {
            pixel: clocks / size,
            shown: clocks % size + 1,
        },
        _ => Drawing::NONE,
    }
}

/// Gives an object an age, and a player the drawing that a copy of its held size has at it.
pub fn set_age(state: &mut State, object: usize, age: u8) {
    state.objects[object].age = age;
    if object == P0 || object == P1 {
        state.drawings[object] = drawing_at(age, state.sizes[object]);
    }
}

/// Copies that give a player this size.
pub fn copies_of_size(random: &Random, size: u8) -> u8 {
    match size {
        2 => 5,
        4 => 7,
        _ => random.pick(&[0, 1, 2, 3, 4, 6]),
    }
}

/// The size that a player's NUSIZ asks for.
pub fn size_now(registers: &Registers, player: usize) -> u8 {
    size_of_copies(registers.copies[player])
}

/// A drawing for a player: most often that of a copy of its held size at its age; otherwise any
/// pixel, shown about as many clocks as the size read now, or as it is.
pub fn edge_drawing(random: &Random, state: &State, player: usize) -> Drawing {
    let size = size_now(&state.registers, player);
    match random.up_to(5) {
        0..=2 => drawing_at(state.objects[player].age, state.sizes[player]),
        3 | 4 => Drawing {
            pixel: random.pick(&[0, 1, 6, 7, 7, random.up_to(7)]),
            shown: random.pick(&[size - 1, size, (size + 1).min(4)]),
        },
        _ => state.drawings[player],
    }
}

#[cfg(test)]
mod tests {
    use super::*;
    use crate::model::clock::run;

    #[test]
    fn the_drawing_at_an_age_is_that_of_a_copy_pulsed_from_its_start() {
        for (size, copies) in [(1, 0), (2, 5), (4, 7)] {
            let mut state = State {
                h: 68,
                ..State::START
            };
            state.objects[P1].position = 159;
            state.registers.copies[P1] = copies;
            for age in 0..=64 {
                state = run(&state, None).unwrap().state;
                assert_eq!(state.objects[P1].age, age);
                assert_eq!(state.drawings[P1], drawing_at(age, size));
                let (first, last) = ages_that_show(&state, P1);
                assert_eq!(
                    drawing_at(age, size).pixel < 8,
                    (first..=last).contains(&age)
                );
            }
        }
    }

    #[test]
    fn copies_give_the_size_that_they_are_asked_for() {
        let random = Random::new(7);
        for size in SIZES.repeat(20) {
            let mut registers = Registers::START;
            registers.copies[P1] = copies_of_size(&random, size);
            assert_eq!(size_now(&registers, P1), size);
        }
    }
}
