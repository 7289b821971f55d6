//! What generators and coverage ask of the colour registers and of writes that decide a colour.

use crate::cases::random::Random;
use crate::model::clock::Done;
use crate::model::colour::colour;
use crate::model::registers::{Register, Registers};
use crate::model::state::State;

/// The colour registers with their names.
pub const COLOURS: [(&str, Register); 4] = [
    ("COLUP0", Register::Colup(0)),
    ("COLUP1", Register::Colup(1)),
    ("COLUPF", Register::Colupf),
    ("COLUBK", Register::Colubk),
];

/// The registers whose write can change a colour while the same objects are lit.
pub const DECIDING: [(&str, Register); 5] = [
    COLOURS[0],
    COLOURS[1],
    COLOURS[2],
    COLOURS[3],
    ("CTRLPF", Register::Ctrlpf),
];

/// The byte that the state holds of a colour register; 0 for any other.
pub fn kept_byte(registers: &Registers, register: Register) -> u8 {
    match register {
        Register::Colup(n) => registers.colup[n],
        Register::Colupf => registers.colupf,
        Register::Colubk => registers.colubk,
        _ => 0,
    }
}

/// The four colours as they are read, bit 0 as 0.
fn colours_read(registers: &Registers) -> [u8; 4] {
    COLOURS.map(|(_, register)| kept_byte(registers, register) & 0b1111_1110)
}

/// Whether the four colours as they are read differ from each other and from 0.
pub fn colours_differ(registers: &Registers) -> bool {
    let mut colours = colours_read(registers).to_vec();
    colours.push(0);
    colours.sort_unstable();
    colours.windows(2).all(|two| two[0] != two[1])
}

/// Gives the colour registers bytes that differ, as they are read, from each other and from 0.
pub fn set_colours(random: &Random, registers: &mut Registers) {
    registers.colubk = 0;
    while !colours_differ(registers) {
        registers.colup = [random.byte(), random.byte()];
        registers.colupf = random.byte();
        registers.colubk = random.byte();
    }
}

/// Makes CTRLPF bits 1 and 2 those of a number from 0 to 3.
pub fn set_priority(registers: &mut Registers, bits: u8) {
    registers.ctrlpf = registers.ctrlpf & 0b1111_1001 | bits << 1;
}

/// Whether the write of a clock changed the colour of its column, the same objects being lit.
pub fn write_changed_colour(given: &State, done: &Done) -> bool {
    !done.blank && colour(&given.registers, &done.lit, given.h - 68) != done.colour
}

#[cfg(test)]
mod tests {
    use super::*;
    use crate::model::clock::{run, RegisterWrite};

    #[test]
    fn a_write_that_changes_the_colour_is_known_by_that() {
        let mut state = State::START;
        state.registers.colubk = 0x44;
        let cases = [
            (100, 0x09, 0x46, true),
            (100, 0x09, 0x45, false),
            (100, 0x08, 0x46, false),
            (60, 0x09, 0x46, false),
        ];
        for (h, address, value, changed) in cases {
            let state = State { h, ..state };
            let done = run(&state, Some(RegisterWrite { address, value })).unwrap();
            assert_eq!(write_changed_colour(&state, &done), changed);
        }
    }

    #[test]
    fn colours_that_are_set_differ_in_more_than_bit_0() {
        let mut registers = Registers::START;
        registers.colup = [0x02, 0x04];
        registers.colupf = 0x06;
        for (byte, differ) in [(0, false), (1, false), (3, false), (5, false), (9, true)] {
            registers.colubk = byte;
            assert_eq!(colours_differ(&registers), differ);
        }
        let random = Random::new(7);
        for _ in 0..100 {
            set_colours(&random, &mut registers);
            assert!(colours_differ(&registers));
        }
        set_priority(&mut registers, 2);
        assert_eq!(registers.ctrlpf, 0b0000_0100);
    }
}
