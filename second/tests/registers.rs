//! Tests of the registers: "Registers (hexadecimal address)", written in single clocks.

use crate::model::registers::{register_at, Registers, KNOWN};
use crate::model::state::State;
use crate::tests::playing::{at, done, to};

/// The start state at clock 1 after clocks with these writes of address and value.
fn after(writes: &[(u8, u8)]) -> State {
    let write = |state: State, &(address, value): &(u8, u8)| done(&state, to(address, value)).state;
    writes.iter().fold(at(1), write)
}

// The addresses and names in the paper's order; "Any other address is refused". One: "Accept 06
// COLUP0, 07 COLUP1, 08 COLUPF and 09 COLUBK ... 7 no longer covers 06 to 09".
#[test]
fn thirty_three_addresses_are_known() {
    let addresses = (0x04..=0x14).chain(0x1B..=0x27);
    let expected: Vec<u8> = addresses.chain(0x2A..=0x2C).collect();
    let known = (0..=255).filter(|&address| register_at(address).is_some());
    assert_eq!(known.collect::<Vec<u8>>(), expected);
    let names = KNOWN.map(|known| known.1).join(" ");
    let expected = "NUSIZ0 NUSIZ1 COLUP0 COLUP1 COLUPF COLUBK CTRLPF REFP0 REFP1 PF0 PF1 PF2 \
                    RESP0 RESP1 RESM0 RESM1 RESBL GRP0 GRP1 ENAM0 ENAM1 ENABL HMP0 HMP1 HMM0 HMM1 HMBL VDELP0 VDELP1 VDELBL \
                    HMOVE HMCLR CXCLR";
    assert_eq!(names, expected);
}

// The bits of each register; "Other bits are ignored and not kept", but CTRLPF's "whole byte is".
// One: of the colour registers "the written byte kept whole".
#[test]
fn each_register_keeps_its_bits_and_no_others() {
    // Address, value, the bits that are ignored, and what the value sets.
    type Row = (u8, u8, u8, fn(&mut Registers));
    let rows: [Row; 28] = [
        (0x04, 0x07, 0xC8, |r| r.copies[0] = 7),
        (0x04, 0x04, 0xC8, |r| r.copies[0] = 4),
        (0x04, 0x10, 0xC8, |r| r.width_codes[0] = 1),
        (0x04, 0x30, 0xC8, |r| r.width_codes[0] = 3),
        (0x05, 0x05, 0xC8, |r| r.copies[1] = 5),
        (0x05, 0x20, 0xC8, |r| r.width_codes[1] = 2),
        (0x06, 0xA5, 0x00, |r| r.colup[0] = 0xA5),
        (0x06, 0x01, 0x00, |r| r.colup[0] = 0x01),
        (0x07, 0xA5, 0x00, |r| r.colup[1] = 0xA5),
        (0x07, 0xFF, 0x00, |r| r.colup[1] = 0xFF),
        (0x08, 0xA5, 0x00, |r| r.colupf = 0xA5),
        (0x08, 0x01, 0x00, |r| r.colupf = 0x01),
        (0x09, 0xA5, 0x00, |r| r.colubk = 0xA5),
        (0x09, 0xFF, 0x00, |r| r.colubk = 0xFF),
        (0x0A, 0xA5, 0x00, |r| r.ctrlpf = 0xA5),
        (0x0B, 0x08, 0xF7, |r| r.refp[0] = true),
        (0x0C, 0x08, 0xF7, |r| r.refp[1] = true),
        (0x0D, 0x90, 0x0F, |r| r.pf0 = 0x9),
        (0x0E, 0xA5, 0x00, |r| r.pf1 = 0xA5),
        (0x0F, 0xA5, 0x00, |r| r.pf2 = 0xA5),
        (0x1B, 0xA5, 0x00, |r| r.grp_new[0] = 0xA5),
        (0x1C, 0xA5, 0x00, |r| r.grp_new[1] = 0xA5),
        (0x1D, 0x02, 0xFD, |r| r.enam[0] = true),
        (0x1E, 0x02, 0xFD, |r| r.enam[1] = true),
        (0x1F, 0x02, 0xFD, |r| r.enabl_new = true),
        (0x25, 0x01, 0xFE, |r| r.vdelp[0] = true),
        (0x26, 0x01, 0xFE, |r| r.vdelp[1] = true),
        (0x27, 0x01, 0xFE, |r| r.vdelbl = true),
    ];
    for (address, value, ignored, set) in rows {
        let mut expected = Registers::START;
        set(&mut expected);
        assert_eq!(after(&[(address, value)]).registers, expected);
        assert_eq!(after(&[(address, value | ignored)]).registers, expected);
        let cleared = after(&[(address, 255), (address, ignored)]);
        assert_eq!(cleared.registers, Registers::START);
    }
}

// "HMP0 .. HMBL (upper half byte)", "HMCLR (five motion values to 0)"; these, the strobes, HMOVE
// and CXCLR leave the drawing registers.
#[test]
fn motion_values_are_the_upper_half_byte_and_fall_with_hmclr() {
    let motions = |state: State| state.objects.map(|object| object.motion);
    for (n, address) in (0x20..=0x24).enumerate() {
        let mut expected = [0; 5];
        expected[n] = 0x9;
        assert_eq!(motions(after(&[(address, 0x9F)])), expected);
        assert_eq!(motions(after(&[(address, 0x9F), (0x2B, 0xFF)])), [0; 5]);
    }
    for address in (0x10..=0x14).chain(0x20..=0x24).chain(0x2A..=0x2C) {
        assert_eq!(after(&[(address, 0xFF)]).registers, Registers::START);
    }
}

// "GRP0 sets the new graphic of P0 and copies P1's new into P1's old. GRP1 sets P1's new, copies
// P0's new into P0's old, and the ball's new enable into its old."
#[test]
fn each_graphic_write_copies_the_other_players_and_grp1_the_balls() {
    // Writes, new graphics, old graphics, the ball's old enable.
    type Row<'a> = (&'a [(u8, u8)], [u8; 2], [u8; 2], bool);
    let off_after_on = [(0x1F, 2), (0x1C, 0), (0x1F, 0), (0x1C, 0)];
    let rows: [Row; 7] = [
        (&[(0x1B, 1), (0x1C, 2)], [1, 2], [1, 0], false),
        (&[(0x1C, 2), (0x1B, 1)], [1, 2], [0, 2], false),
        (&[(0x1B, 1), (0x1C, 2), (0x1B, 3)], [3, 2], [1, 2], false),
        (&[(0x1F, 2), (0x1B, 0)], [0, 0], [0, 0], false),
        (&off_after_on[..2], [0, 0], [0, 0], true),
        (&off_after_on[..3], [0, 0], [0, 0], true),
        (&off_after_on, [0, 0], [0, 0], false),
    ];
    for (writes, new, old, enabl_old) in rows {
        let registers = after(writes).registers;
        assert_eq!((registers.grp_new, registers.grp_old), (new, old));
        assert_eq!(registers.enabl_old, enabl_old);
    }
}
