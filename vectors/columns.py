"""The columns of a scene's last line, as the coverage reads them: each with its object byte and what the registers
hold at its clock."""

from typing import NamedTuple

import scenes  # so that the project's modules are found
from classroom.lines import BLANK, COLUMNS
from classroom.registers import NAMES

COLOUR_REGISTERS = ("COLUP0", "COLUP1", "COLUPF", "COLUBK")
READ = ("CTRLPF", *COLOUR_REGISTERS)  # what a column's colour is read from, beside its object byte
PLAYER_REGISTERS = ("NUSIZ0", "NUSIZ1", "REFP0", "REFP1", "VDELP0", "VDELP1", "GRP0", "GRP1", "old GRP0", "old GRP1")
HELD = (*READ, *PLAYER_REGISTERS, "PF0")
COPIED = {"GRP0": "GRP1", "GRP1": "GRP0"}  # a write to the one keeps what the other holds as its old graphic


class Column(NamedTuple):
    """A column: its number, its object byte, and what the registers hold at its clock and held at the clock before."""

    number: int
    byte: int
    held: dict
    before: dict


def columns_of(scene, line):
    """The columns of a scene's last line, given its object bytes."""
    clocks = registers_at_clocks(scene.lines)
    pairs = zip(clocks[BLANK:], clocks[BLANK - 1 :])
    return [Column(number, byte, held, before) for number, (byte, (held, before)) in enumerate(zip(line, pairs))]


def registers_at_clocks(lines):
    """What the registers hold at each clock of the last of these lines of writes, after its write; 0 before any."""
    held = dict.fromkeys(HELD, 0)
    for writes in lines[:-1]:
        for _, address, value in writes:
            held = written(held, address, value)
    last = {clock: (address, value) for clock, address, value in lines[-1]}
    clocks = []
    for clock in range(BLANK + COLUMNS):
        held = written(held, *last[clock]) if clock in last else held
        clocks.append(held)
    return clocks


def written(held, address, value):
    """What the registers hold after a write, which may be to another register."""
    name = NAMES.get(address)
    if name not in held:
        return held
    other = COPIED.get(name)
    return {**held, name: value, **({f"old {other}": held[other]} if other else {})}
