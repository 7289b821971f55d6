//! The state as 69 bytes, one a field, flags 0 or 1, in the order of the case file: each field's
//! name, its range for refusal 1 and where the state holds it; and the faults of a state.

use crate::cases::random::Random;
use crate::model::drawing::NO_PIXEL;
use crate::model::object::{BL, M0, M1, P0, P1};
use crate::model::state::{State, NO_MOTION};
use Kind::{Flag, Max, Size};

/// What a field is, and where a state holds it: a number from 0 to a greatest one, a held size,
/// which is 1, 2 or 4, or a flag.
enum Kind {
    Max(u8, fn(&mut State) -> &mut u8),
    Size(fn(&mut State) -> &mut u8),
    Flag(fn(&mut State) -> &mut bool),
}

/// A field of the state.
pub struct Field {
    pub name: &'static str,
    kind: Kind,
}

/// A row of the table of fields.
const fn field(name: &'static str, kind: Kind) -> Field {
    Field { name, kind }
}

/// The number of fields.
pub const LENGTH: usize = 69;

/// The fields, each at the index of its byte.
pub static FIELDS: [Field; LENGTH] = [
    field("h", Max(227, |s| &mut s.h)),
    field("position of P0", Max(159, |s| &mut s.objects[P0].position)),
    field("age of P0", Max(64, |s| &mut s.objects[P0].age)),
    field("motion value of P0", Max(15, |s| &mut s.objects[P0].motion)),
    field("live flag of P0", Flag(|s| &mut s.objects[P0].live)),
    field("position of P1", Max(159, |s| &mut s.objects[P1].position)),
    field("age of P1", Max(64, |s| &mut s.objects[P1].age)),
    field("motion value of P1", Max(15, |s| &mut s.objects[P1].motion)),
    field("live flag of P1", Flag(|s| &mut s.objects[P1].live)),
    field("position of M0", Max(159, |s| &mut s.objects[M0].position)),
    field("age of M0", Max(64, |s| &mut s.objects[M0].age)),
    field("motion value of M0", Max(15, |s| &mut s.objects[M0].motion)),
    field("live flag of M0", Flag(|s| &mut s.objects[M0].live)),
    field("position of M1", Max(159, |s| &mut s.objects[M1].position)),
    field("age of M1", Max(64, |s| &mut s.objects[M1].age)),
    field("motion value of M1", Max(15, |s| &mut s.objects[M1].motion)),
    field("live flag of M1", Flag(|s| &mut s.objects[M1].live)),
    field("position of BL", Max(159, |s| &mut s.objects[BL].position)),
    field("age of BL", Max(64, |s| &mut s.objects[BL].age)),
    field("motion value of BL", Max(15, |s| &mut s.objects[BL].motion)),
    field("live flag of BL", Flag(|s| &mut s.objects[BL].live)),
    field("held size of P0", Size(|s| &mut s.sizes[P0])),
    field("held size of P1", Size(|s| &mut s.sizes[P1])),
    field("slot", Max(NO_MOTION, |s| &mut s.slot)),
    field("late flag", Flag(|s| &mut s.late)),
    field("latch M0-P1", Flag(|s| &mut s.latches[0])),
    field("latch M0-P0", Flag(|s| &mut s.latches[1])),
    field("latch M1-P0", Flag(|s| &mut s.latches[2])),
    field("latch M1-P1", Flag(|s| &mut s.latches[3])),
    field("latch P0-PF", Flag(|s| &mut s.latches[4])),
    field("latch P0-BL", Flag(|s| &mut s.latches[5])),
    field("latch P1-PF", Flag(|s| &mut s.latches[6])),
    field("latch P1-BL", Flag(|s| &mut s.latches[7])),
    field("latch M0-PF", Flag(|s| &mut s.latches[8])),
    field("latch M0-BL", Flag(|s| &mut s.latches[9])),
    field("latch M1-PF", Flag(|s| &mut s.latches[10])),
    field("latch M1-BL", Flag(|s| &mut s.latches[11])),
    field("latch BL-PF", Flag(|s| &mut s.latches[12])),
    field("latch P0-P1", Flag(|s| &mut s.latches[13])),
    field("latch M0-M1", Flag(|s| &mut s.latches[14])),
    field("copies of NUSIZ0", Max(7, |s| &mut s.registers.copies[0])),
    field(
        "width code of NUSIZ0",
        Max(3, |s| &mut s.registers.width_codes[0]),
    ),
    field("copies of NUSIZ1", Max(7, |s| &mut s.registers.copies[1])),
    field(
        "width code of NUSIZ1",
        Max(3, |s| &mut s.registers.width_codes[1]),
    ),
    field("CTRLPF", Max(255, |s| &mut s.registers.ctrlpf)),
    field("REFP0", Flag(|s| &mut s.registers.refp[0])),
    field("REFP1", Flag(|s| &mut s.registers.refp[1])),
    field("PF0", Max(15, |s| &mut s.registers.pf0)),
    field("PF1", Max(255, |s| &mut s.registers.pf1)),
    field("PF2", Max(255, |s| &mut s.registers.pf2)),
    field("GRP0 new", Max(255, |s| &mut s.registers.grp_new[0])),
    field("GRP0 old", Max(255, |s| &mut s.registers.grp_old[0])),
    field("GRP1 new", Max(255, |s| &mut s.registers.grp_new[1])),
    field("GRP1 old", Max(255, |s| &mut s.registers.grp_old[1])),
    field("ENAM0", Flag(|s| &mut s.registers.enam[0])),
    field("ENAM1", Flag(|s| &mut s.registers.enam[1])),
    field("ENABL new", Flag(|s| &mut s.registers.enabl_new)),
    field("ENABL old", Flag(|s| &mut s.registers.enabl_old)),
    field("VDELP0", Flag(|s| &mut s.registers.vdelp[0])),
    field("VDELP1", Flag(|s| &mut s.registers.vdelp[1])),
    field("VDELBL", Flag(|s| &mut s.registers.vdelbl)),
    field("COLUP0", Max(255, |s| &mut s.registers.colup[0])),
    field("COLUP1", Max(255, |s| &mut s.registers.colup[1])),
    field("COLUPF", Max(255, |s| &mut s.registers.colupf)),
    field("COLUBK", Max(255, |s| &mut s.registers.colubk)),
    field("pixel of P0", Max(NO_PIXEL, |s| &mut s.drawings[P0].pixel)),
    field("clocks shown of P0", Max(4, |s| &mut s.drawings[P0].shown)),
    field("pixel of P1", Max(NO_PIXEL, |s| &mut s.drawings[P1].pixel)),
    field("clocks shown of P1", Max(4, |s| &mut s.drawings[P1].shown)),
];

impl Field {
    /// Whether a byte is in the field's range.
    pub fn has(&self, byte: u8) -> bool {
        match self.kind {
            Max(last, _) => byte <= last,
            Size(_) => [1, 2, 4].contains(&byte),
            Flag(_) => byte <= 1,
        }
    }

    /// The bytes out of range that stand next to the range, then 255; none for a flag, and none
    /// for a field of which every byte is in range.
    pub fn beyond(&self) -> Vec<u8> {
        match self.kind {
            Max(255, _) | Flag(_) => vec![],
            Max(last, _) => vec![last + 1, 255],
            Size(_) => vec![0, 3, 5, 255],
        }
    }

    /// A byte drawn evenly from the range.
    pub fn draw(&self, random: &Random) -> u8 {
        match self.kind {
            Max(last, _) => random.up_to(last),
            Size(_) => random.pick(&[1, 2, 4]),
            Flag(_) => random.up_to(1),
        }
    }
}

/// The fields that can be out of range, each with its index.
pub fn checked_fields() -> impl Iterator<Item = (usize, &'static Field)> {
    let fields = FIELDS.iter().enumerate();
    fields.filter(|(_, field)| !field.beyond().is_empty())
}

/// The bytes of a state.
pub fn to_bytes(state: &State) -> [u8; LENGTH] {
    let mut state = *state;
    let mut bytes = [0; LENGTH];
    for (byte, field) in bytes.iter_mut().zip(&FIELDS) {
        *byte = match field.kind {
            Max(_, held) | Size(held) => *held(&mut state),
            Flag(held) => u8::from(*held(&mut state)),
        };
    }
    bytes
}

/// The state of these bytes; a flag is set unless its byte is 0.
pub fn from_bytes(bytes: &[u8; LENGTH]) -> State {
    let mut state = State::START;
    for (&byte, field) in bytes.iter().zip(&FIELDS) {
        match field.kind {
            Max(_, held) | Size(held) => *held(&mut state) = byte,
            Flag(held) => *held(&mut state) = byte != 0,
        }
    }
    state
}

/// A fault of a state: the field with this index out of range, or an object's live flag set with
/// slot 16.
#[derive(Clone, Copy, Debug, PartialEq, Eq)]
pub enum Fault {
    Field(usize),
    Live(usize),
}

/// All faults of a state.
pub fn faults(bytes: &[u8; LENGTH]) -> Vec<Fault> {
    let state = from_bytes(bytes);
    let beyond = |&n: &usize| !FIELDS[n].has(bytes[n]);
    let live = |&n: &usize| state.slot == NO_MOTION && state.objects[n].live;
    let fields = (0..LENGTH).filter(beyond).map(Fault::Field);
    fields.chain((0..5).filter(live).map(Fault::Live)).collect()
}

#[cfg(test)]
mod tests {
    use super::*;

    #[test]
    fn each_byte_is_one_field_and_the_check_accepts_the_states_without_faults() {
        let start = to_bytes(&State::START);
        let mut expected = [0; LENGTH];
        expected[21..24].copy_from_slice(&[1, 1, 16]);
        for age in [2, 6, 10, 14, 18] {
            expected[age] = 64;
        }
        for pixel in [65, 67] {
            expected[pixel] = 8;
        }
        assert_eq!(start, expected);
        for (n, field) in FIELDS.iter().enumerate() {
            for byte in 0..=255 {
                let mut bytes = start;
                bytes[n] = byte;
                let state = from_bytes(&bytes);
                bytes[n] = if let Flag(_) = field.kind {
                    byte.min(1)
                } else {
                    byte
                };
                assert_eq!(to_bytes(&state), bytes, "{}", field.name);
                assert_eq!(faults(&bytes).is_empty(), state.check().is_ok());
                assert_eq!(faults(&bytes) == [Fault::Field(n)], !field.has(bytes[n]));
            }
        }
    }
}
