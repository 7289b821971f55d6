"""Hints on a source that is a tape and may not show what was meant. They refuse nothing."""

from itertools import groupby
from typing import NamedTuple

from classroom.lines import CLOCKS, span
from classroom.registers import MOTION, MOVABLE, NAMES, REGISTERS, signed

LATE = 16  # the clock of a line from which HMOVE does not move by each motion value any more
TOO_LATE = 68  # the clock from which it moves nothing
NEXT_LINE = 168  # the clock from which it moves on the next line
AT_REST = 72  # clocks after an HMOVE from which motion values may be written again
UPPER_HALF = 0xF0


class Hint(NamedTuple):
    """A hint: the row of the source, counted from 1, and what was found there with what to write."""

    row: int
    message: str


class Named(NamedTuple):
    """A write that the chip can take: its clock counted from the first line's first, its register's name, its row, its clock in
    the line and its value."""

    time: int
    name: str
    row: int
    clock: int
    value: int


def hints(lines):
    """The hints on the scanlines of a source, as notation.parsed gives them, in the order of rows and each once."""
    writes = [
        Named(CLOCKS * number + clock, NAMES[address], row, clock, value)
        for number, line in enumerate(lines)
        for row, clock, address, value in line
        if address in NAMES and clock < CLOCKS
    ]
    found = [*lost_values(writes), *late_moves(writes), *early_motion(writes), *dark_objects(writes)]
    return sorted(dict.fromkeys(found), key=lambda hint: hint.row)


def lost_values(writes):
    """A hint on each value that sets bits, but none that counts; a strobe has no value."""
    for write in writes:
        register = REGISTERS[write.name]
        if write.value and not register.strobe and not write.value & register.mask:
            reads = f"{write.name} reads ${write.value:02X} as $00, since only {bits(register.mask)}"
            yield Hint(write.row, f"{reads}: write {meant(write)}")


def bits(mask):
    """That the bits of a mask count, such as `bits 0-2 and 4-5 count`."""
    numbers = [bit for bit in range(8) if mask >> bit & 1]
    if len(numbers) == 1:
        return f"bit {numbers[0]} counts"
    runs = [[bit for _, bit in run] for _, run in groupby(enumerate(numbers), key=lambda place: place[1] - place[0])]
    return f"bits {' and '.join(span(run[0], run[-1]) for run in runs)} count"


def meant(write):
    """What was probably meant by a value of which no bit counts."""
    mask = REGISTERS[write.name].mask
    if mask == UPPER_HALF:
        byte = f"${write.value << 4:02X}"
        return f"{signed(write.value):+d} or {byte}" if write.name in MOTION else byte
    if mask & (mask - 1) == 0:
        return f"${mask:02X}"
    return "$00, or a value with one of these bits"


def late_moves(writes):
    """A hint on each HMOVE that does not move every object by its motion value."""
    for write in writes:
        if write.name == "HMOVE" and write.clock >= LATE:
            effect = late_effect(write.clock)
            yield Hint(write.row, f"HMOVE at clock {write.clock} {effect}: write it at one of the clocks 0 to {LATE - 1}")


def late_effect(clock):
    """What an HMOVE does at a clock from 16 on."""
    if clock < TOO_LATE:
        return f"moves an object by its motion value only up to {most_motion(clock):+d}"
    if clock < NEXT_LINE:
        return "moves nothing"
    more = next_line_motion(clock)
    change = f" {'plus' if more > 0 else 'minus'} {abs(more)}" if more else ""
    return f"moves on the next line, by the motion value{change} and never to the right, and blanks nothing"


def most_motion(clock):
    """The motion value above which an HMOVE at a clock from 16 to 67 moves by this value instead."""
    return 10 - clock // 4


def next_line_motion(clock):
    """What an HMOVE at a clock from 168 on adds to the motion value; a sum below 0 moves nothing."""
    return clock // 4 - 48


def early_motion(writes):
    """A hint on each motion value that is written, or cleared, too early after the latest HMOVE, on its line or the next."""
    move = None
    for write in writes:
        if write.name == "HMOVE":
            move = write
        elif move and (write.name in MOTION or write.name == "HMCLR") and 0 < write.time - move.time < AT_REST:
            after = write.time - move.time
            found = f"{write.name} is written {after} clock{'s' if after > 1 else ''} after the HMOVE of row {move.row}"
            yield Hint(write.row, f"{found}: write it before that, or at least {AT_REST} clocks after it")


def dark_objects(writes):
    """A hint on each object that is strobed or moved and never lit, at the first such row."""
    for thing, registers in MOVABLE.items():
        placing = [write for write in writes if write.name == registers.strobe or counts(write, registers.motion)]
        if placing and not any(counts(write, registers.shown) for write in writes):
            done = "is strobed" if placing[0].name == registers.strobe else "gets a motion value"
            yield Hint(placing[0].row, f"{thing} {done} here, but {dark(registers.shown)}")


def counts(write, name):
    """Whether a write sets a bit that counts of the register with this name."""
    return write.name == name and write.value & REGISTERS[name].mask != 0


def dark(name):
    """That the register with this name keeps an object dark, and what to write."""
    if name.startswith("GRP"):
        return f"its graphic stays 0: write one to {name}, such as $FF"
    return f"is never enabled: write $02 to {name}"
