//! The chip's state: its fields, those of request Two among them, the start state, and refusal 1.

use crate::model::drawing::Drawing;
use crate::model::object::Object;
use crate::model::refusal::Refusal;
use crate::model::registers::Registers;

/// The slot at which no motion is under way.
pub const NO_MOTION: u8 = 16;

/// The state between two clocks. Objects in the order P0, P1, M0, M1, BL; held sizes and drawings
/// those of P0 and P1; latches in the order of the read-out.
#[derive(Clone, Copy, Debug, PartialEq, Eq)]
pub struct State {
    pub h: u8,
    pub objects: [Object; 5],
    pub sizes: [u8; 2],
    pub drawings: [Drawing; 2],
    pub slot: u8,
    pub late: bool,
    pub latches: [bool; 15],
    pub registers: Registers,
}

impl State {
    /// The start state.
    pub const START: State = State {
        h: 0,
        objects: [Object::START; 5],
        sizes: [1, 1],
        drawings: [Drawing::NONE; 2],
        slot: NO_MOTION,
        late: false,
        latches: [false; 15],
        registers: Registers::START,
    };

    /// Refuses (1) a state with a field outside its range, or with a live flag set at slot 16.
    pub fn check(&self) -> Result<(), Refusal> {
        let in_range = self.h <= 227
            && self.objects.iter().all(|object| object.in_range())
            && self.sizes.iter().all(|size| [1, 2, 4].contains(size))
            && self.drawings.iter().all(|drawing| drawing.in_range())
            && self.slot <= NO_MOTION
            && self.registers.in_range();
        let live = self.objects.iter().any(|object| object.live);
        if !in_range || (self.slot == NO_MOTION && live) {
            return Err(Refusal::without_record(1));
        }
        Ok(())
    }
}
