//! The five objects: an object's position, age, motion value and live flag, the slot at which its
//! motion ends (step 4), its pulse, its starts and a player's sizes (step 6).

/// The objects by number: the number of the object's bit in the answer byte. PF is the playfield.
pub const P0: usize = 0;
pub const P1: usize = 1;
pub const M0: usize = 2;
pub const M1: usize = 3;
pub const BL: usize = 4;
pub const PF: usize = 5;

/// The names of the objects in the order of their numbers.
pub const NAMES: [&str; 6] = ["P0", "P1", "M0", "M1", "BL", "PF"];

/// The state of one object.
#[derive(Clone, Copy, Debug, PartialEq, Eq)]
pub struct Object {
    pub position: u8,
    pub age: u8,
    pub motion: u8,
    pub live: bool,
}

impl Object {
    /// The object of the start state.
    pub const START: Object = Object {
        position: 0,
        age: 64,
        motion: 0,
        live: false,
    };

    /// Whether position, age and motion value are all in range.
    pub fn in_range(self) -> bool {
        self.position <= 159 && self.age <= 64 && self.motion <= 15
    }

    /// The slot at which a comparison finds equal: 8 plus the signed motion value, half bytes
    /// 8 to 15 meaning -8 to -1.
    pub fn end_slot(self) -> u8 {
        if self.motion < 8 {
            8 + self.motion
        } else {
            self.motion - 8
        }
    }

    /// Step 6 without the start: the object with its position risen by one, 159 going to 0, and
    /// its age risen by one, stopping at 64.
    pub fn pulsed(self) -> Object {
        let position = match self.position {
            159 => 0,
            position => position + 1,
        };
        let age = match self.age {
            64 => 64,
            age => age + 1,
        };
        Object {
            position,
            age,
            ..self
        }
    }
}

/// Step 6: whether a position is a start with these copies; the ball has no copies.
pub fn is_start(position: u8, copies: Option<u8>) -> bool {
    matches!(
        (position, copies),
        (0, _) | (16, Some(1 | 3)) | (32, Some(2 | 3 | 6)) | (64, Some(4 | 6))
    )
}

/// Step 6: the size that a player's NUSIZ asks for.
pub fn size_of_copies(copies: u8) -> u8 {
    match copies {
        5 => 2,
        7 => 4,
        _ => 1,
    }
}
