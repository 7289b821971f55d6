//! What generators and coverage ask of a write to a register that steps 8 and 9 read.

use crate::model::clock::Done;
use crate::model::lit::lit;
use crate::model::registers::Register;
use crate::model::state::State;

/// Whether a register is one of those that steps 8 and 9 read.
pub fn is_for_drawing(register: Register) -> bool {
    !matches!(
        register,
        Register::Colup(_)
            | Register::Colupf
            | Register::Colubk
            | Register::Strobe(_)
            | Register::Motion(_)
            | Register::Hmove
            | Register::Hmclr
            | Register::Cxclr
    )
}

/// Whether the write to a drawing register changed what is lit on the clock of the write.
pub fn write_changed_lit(given: &State, done: &Done) -> bool {
    let unwritten = State {
        h: given.h,
        registers: given.registers,
        ..done.state
    };
    lit(&unwritten) != done.lit
}

#[cfg(test)]
mod tests {
    use super::*;
    use crate::model::clock::{run, RegisterWrite};
    use crate::model::object::M0;

    #[test]
    fn a_write_that_changes_what_is_lit_is_known_by_that() {
        let mut state = State::START;
        state.h = 100;
        state.objects[M0].position = 50;
        state.objects[M0].age = 3;
        state.registers.enam[0] = true;
        let cases = [(0x1D, 0, true), (0x1D, 2, false), (0x12, 0, false)];
        for (address, value, changed) in cases {
            let done = run(&state, Some(RegisterWrite { address, value })).unwrap();
            assert_eq!(write_changed_lit(&state, &done), changed);
        }
        assert!(!write_changed_lit(&state, &run(&state, None).unwrap()));
    }
}
