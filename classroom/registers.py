"""The registers of the chip: their addresses, the bits of a value that count, what moves and shows each object; and the TIA's
registers that this kit leaves out."""

from typing import NamedTuple


class Register(NamedTuple):
    """A register of the chip: its address, whether it is a strobe, which ignores the value written, and the bits of the value
    that count."""

    address: int
    strobe: bool
    mask: int


REGISTERS = {
    "NUSIZ0": Register(0x04, False, 0x37),
    "NUSIZ1": Register(0x05, False, 0x37),
    "COLUP0": Register(0x06, False, 0xFE),
    "COLUP1": Register(0x07, False, 0xFE),
    "COLUPF": Register(0x08, False, 0xFE),
    "COLUBK": Register(0x09, False, 0xFE),
    "CTRLPF": Register(0x0A, False, 0x37),
    "REFP0": Register(0x0B, False, 0x08),
    "REFP1": Register(0x0C, False, 0x08),
    "PF0": Register(0x0D, False, 0xF0),
    "PF1": Register(0x0E, False, 0xFF),
    "PF2": Register(0x0F, False, 0xFF),
    "RESP0": Register(0x10, True, 0x00),
    "RESP1": Register(0x11, True, 0x00),
    "RESM0": Register(0x12, True, 0x00),
    "RESM1": Register(0x13, True, 0x00),
    "RESBL": Register(0x14, True, 0x00),
    "GRP0": Register(0x1B, False, 0xFF),
    "GRP1": Register(0x1C, False, 0xFF),
    "ENAM0": Register(0x1D, False, 0x02),
    "ENAM1": Register(0x1E, False, 0x02),
    "ENABL": Register(0x1F, False, 0x02),
    "HMP0": Register(0x20, False, 0xF0),
    "HMP1": Register(0x21, False, 0xF0),
    "HMM0": Register(0x22, False, 0xF0),
    "HMM1": Register(0x23, False, 0xF0),
    "HMBL": Register(0x24, False, 0xF0),
    "VDELP0": Register(0x25, False, 0x01),
    "VDELP1": Register(0x26, False, 0x01),
    "VDELBL": Register(0x27, False, 0x01),
    "HMOVE": Register(0x2A, True, 0x00),
    "HMCLR": Register(0x2B, True, 0x00),
    "CXCLR": Register(0x2C, True, 0x00),
}

NAMES = {register.address: name for name, register in REGISTERS.items()}


class Movable(NamedTuple):
    """The registers of an object that moves: its position strobe, its motion register, and the one without which it is dark."""

    strobe: str
    motion: str
    shown: str


MOVABLE = {
    "P0": Movable("RESP0", "HMP0", "GRP0"),
    "P1": Movable("RESP1", "HMP1", "GRP1"),
    "M0": Movable("RESM0", "HMM0", "ENAM0"),
    "M1": Movable("RESM1", "HMM1", "ENAM1"),
    "BL": Movable("RESBL", "HMBL", "ENABL"),
}

MOTION = tuple(movable.motion for movable in MOVABLE.values())

NO_SYNC = "is left out of this kit, which has no sync: leave the row out"
NO_SOUND = "is left out of this kit, which has no sound: leave the row out"
LATCH = "is read, not written: the latches stand in the cx row"
NO_INPUT = "is read, not written, and this kit has no inputs: leave the row out"

# What a message says of the TIA's other registers.
LEFT_OUT = {
    "WSYNC": "is left out of this kit: begin a new 'line' instead",
    **dict.fromkeys(("VSYNC", "VBLANK", "RSYNC"), NO_SYNC),
    **dict.fromkeys(("AUDC0", "AUDC1", "AUDF0", "AUDF1", "AUDV0", "AUDV1"), NO_SOUND),
    "RESMP0": "is not in this kit: strobe RESM0 to put the missile at a clock",
    "RESMP1": "is not in this kit: strobe RESM1 to put the missile at a clock",
    **dict.fromkeys(("CXM0P", "CXM1P", "CXP0FB", "CXP1FB", "CXM0FB", "CXM1FB", "CXBLPF", "CXPPMM"), LATCH),
    **dict.fromkeys(("INPT0", "INPT1", "INPT2", "INPT3", "INPT4", "INPT5"), NO_INPUT),
}


def is_strobe(address):
    """Whether the register at an address is a strobe."""
    return address in NAMES and REGISTERS[NAMES[address]].strobe


def takes_motion(address):
    """Whether the register at an address is a motion register."""
    return NAMES.get(address) in MOTION


def signed(half):
    """The motion value of a half byte: 0 to 7, and -8 to -1 for 8 to 15."""
    return half if half < 8 else half - 16
