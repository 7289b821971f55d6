//! The registers: their addresses, what the state holds of those that are kept for drawing and for
//! colour, and what a write to one of these sets.

use crate::model::object::{BL, M0, M1, P0, P1};

/// A known register; the number is that of the player, of the missile or of the object.
#[derive(Clone, Copy, Debug, PartialEq, Eq)]
pub enum Register {
    Nusiz(usize),
    Colup(usize),
    Colupf,
    Colubk,
    Ctrlpf,
    Refp(usize),
    Pf0,
    Pf1,
    Pf2,
    Strobe(usize),
    Grp(usize),
    Enam(usize),
    Enabl,
    Motion(usize),
    Vdelp(usize),
    Vdelbl,
    Hmove,
    Hmclr,
    Cxclr,
}

/// The known registers: address, name, register.
pub const KNOWN: [(u8, &str, Register); 33] = [
    (0x04, "NUSIZ0", Register::Nusiz(0)),
    (0x05, "NUSIZ1", Register::Nusiz(1)),
    (0x06, "COLUP0", Register::Colup(0)),
    (0x07, "COLUP1", Register::Colup(1)),
    (0x08, "COLUPF", Register::Colupf),
    (0x09, "COLUBK", Register::Colubk),
    (0x0A, "CTRLPF", Register::Ctrlpf),
    (0x0B, "REFP0", Register::Refp(0)),
    (0x0C, "REFP1", Register::Refp(1)),
    (0x0D, "PF0", Register::Pf0),
    (0x0E, "PF1", Register::Pf1),
    (0x0F, "PF2", Register::Pf2),
    (0x10, "RESP0", Register::Strobe(P0)),
    (0x11, "RESP1", Register::Strobe(P1)),
    (0x12, "RESM0", Register::Strobe(M0)),
    (0x13, "RESM1", Register::Strobe(M1)),
    (0x14, "RESBL", Register::Strobe(BL)),
    (0x1B, "GRP0", Register::Grp(0)),
    (0x1C, "GRP1", Register::Grp(1)),
    (0x1D, "ENAM0", Register::Enam(0)),
    (0x1E, "ENAM1", Register::Enam(1)),
    (0x1F, "ENABL", Register::Enabl),
    (0x20, "HMP0", Register::Motion(P0)),
    (0x21, "HMP1", Register::Motion(P1)),
    (0x22, "HMM0", Register::Motion(M0)),
    (0x23, "HMM1", Register::Motion(M1)),
    (0x24, "HMBL", Register::Motion(BL)),
    (0x25, "VDELP0", Register::Vdelp(0)),
    (0x26, "VDELP1", Register::Vdelp(1)),
    (0x27, "VDELBL", Register::Vdelbl),
    (0x2A, "HMOVE", Register::Hmove),
    (0x2B, "HMCLR", Register::Hmclr),
    (0x2C, "CXCLR", Register::Cxclr),
];

/// The register at an address; none if the address is unknown.
pub fn register_at(address: u8) -> Option<Register> {
    KNOWN
        .iter()
        .find(|known| known.0 == address)
        .map(|known| known.2)
}

/// What the state holds of the registers; pairs are those of player or missile 0 and 1.
#[derive(Clone, Copy, Debug, PartialEq, Eq)]
pub struct Registers {
    pub copies: [u8; 2],
    pub width_codes: [u8; 2],
    pub colup: [u8; 2],
    pub colupf: u8,
    pub colubk: u8,
    pub ctrlpf: u8,
    pub refp: [bool; 2],
    pub pf0: u8,
    pub pf1: u8,
    pub pf2: u8,
    pub grp_new: [u8; 2],
    pub grp_old: [u8; 2],
    pub enam: [bool; 2],
    pub enabl_new: bool,
    pub enabl_old: bool,
    pub vdelp: [bool; 2],
    pub vdelbl: bool,
}

impl Registers {
    /// The registers of the start state.
    pub const START: Registers = Registers {
        copies: [0, 0],
        width_codes: [0, 0],
        colup: [0, 0],
        colupf: 0,
        colubk: 0,
        ctrlpf: 0,
        refp: [false, false],
        pf0: 0,
        pf1: 0,
        pf2: 0,
        grp_new: [0, 0],
        grp_old: [0, 0],
        enam: [false, false],
        enabl_new: false,
        enabl_old: false,
        vdelp: [false, false],
        vdelbl: false,
    };

    /// Whether copies, width codes and PF0's half byte are all in range; the rest are bytes and
    /// flags.
    pub fn in_range(&self) -> bool {
        self.copies.iter().all(|&copies| copies <= 7)
            && self.width_codes.iter().all(|&code| code <= 3)
            && self.pf0 <= 15
    }

    /// The copies of a player's or missile's NUSIZ; none for the ball.
    pub fn copies_of(&self, object: usize) -> Option<u8> {
        match object {
            P0 | M0 => Some(self.copies[0]),
            P1 | M1 => Some(self.copies[1]),
            _ => None,
        }
    }

    /// A write to a register kept here; the position strobes, motion registers, HMOVE, HMCLR
    /// and CXCLR set nothing here.
    pub fn set(&mut self, register: Register, value: u8) {
        match register {
            Register::Nusiz(n) => {
                self.copies[n] = value & 0b0000_0111;
                self.width_codes[n] = (value & 0b0011_0000) >> 4;
            }
            Register::Colup(n) => self.colup[n] = value,
            Register::Colupf => self.colupf = value,
            Register::Colubk => self.colubk = value,
            Register::Ctrlpf => self.ctrlpf = value,
            Register::Refp(n) => self.refp[n] = value & 0b0000_1000 != 0,
            Register::Pf0 => self.pf0 = value >> 4,
            Register::Pf1 => self.pf1 = value,
            Register::Pf2 => self.pf2 = value,
            Register::Grp(n) => self.set_graphic(n, value),
            Register::Enam(n) => self.enam[n] = value & 0b0000_0010 != 0,
            Register::Enabl => self.enabl_new = value & 0b0000_0010 != 0,
            Register::Vdelp(n) => self.vdelp[n] = value & 0b0000_0001 != 0,
            Register::Vdelbl => self.vdelbl = value & 0b0000_0001 != 0,
            Register::Strobe(_)
            | Register::Motion(_)
            | Register::Hmove
            | Register::Hmclr
            | Register::Cxclr => {}
        }
    }

    /// GRP0 or GRP1: sets that player's new graphic and copies the other player's new graphic
    /// into its old; GRP1 also copies the ball's new enable into its old.
    fn set_graphic(&mut self, player: usize, value: u8) {
        let other = 1 - player;
        self.grp_new[player] = value;
        self.grp_old[other] = self.grp_new[other];
        if player == 1 {
            self.enabl_old = self.enabl_new;
        }
    }
}
