"""The table of a line's clocks: the state after each, by the records that clock_bytes writes."""

from typing import NamedTuple

from classroom.lines import BLANK, CLOCKS, UNSHOWN, lit
from classroom.registers import MOVABLE, REGISTERS, signed

SHARED = 4  # bytes of a clock's record that all objects share, before those of each object that moves
OBJECT = 6  # bytes of an object that moves
PLAYERS = ("P0", "P1")
DRAWING = ("pixel", "shown")  # what a player has beside these: a byte of the record for each, and a column of the table
LED_ON, LED_OFF = "●", "○"
LEDS = 6  # bits of the counter
NO_MOTION = 16
NOT_DRAWN = 64
NO_PIXEL = 8
HEADS = ("clock", "column", "blank", "slot", "late", "position", "counter", "age", "motion", "live")
NOTES = (
    f"^: the position rose. Slot {NO_MOTION}: no motion under way. Age {NOT_DRAWN}: nothing is being drawn.",
    "Counter: the card's value of the count position / 4, as lamps.",
)
DRAWING_NOTES = (
    "Pixel: which of the eight of a copy is drawn, 0 the leftmost; -: none. Shown: for how many clocks, those without a pulse not counted.",
    "The next pixel begins once this one has been shown as many clocks as the size that NUSIZ gives, 1, 2 or 4, or more.",
)


class Clock(NamedTuple):
    """A clock and the state after it: what all objects share, and one object; drawing is a player's pixel and the clocks that it
    has been shown, and empty for any other object."""

    clock: int
    answer: int
    slot: int
    late: bool
    position: int
    rose: bool
    counter: int
    age: int
    motion: int
    live: bool
    drawing: tuple


def of_players(name, more):
    """What a player has more than any other object, if the one with this name is a player; otherwise nothing."""
    return more if name in PLAYERS else ()


SIZES = [OBJECT + len(of_players(name, DRAWING)) for name in MOVABLE]  # of each object's bytes in a record
RECORD = SHARED + sum(SIZES)  # bytes of a clock's record


def clocks_of(records, name):
    """The clocks of a line for an object that moves, by the records of all its clocks. Fails with ValueError where these are not
    whole."""
    if len(records) != CLOCKS * RECORD:
        raise ValueError(f"found {len(records)} bytes: expected {CLOCKS} records of {RECORD}")
    index = list(MOVABLE).index(name)
    at = SHARED + sum(SIZES[:index])
    place = slice(at, at + SIZES[index])
    return [clock_of(records[start : start + RECORD], place) for start in range(0, len(records), RECORD)]


def clock_of(record, place):
    """A clock by its record, with the object whose bytes have this place in it."""
    clock, answer, slot, late = record[:SHARED]
    position, rose, counter, age, motion, live, *drawing = record[place]
    return Clock(clock, answer, slot, bool(late), position, bool(rose), counter, age, motion, bool(live), tuple(drawing))


def table(clocks, name, first, final, writes):
    """The rows that show the clocks from the first to the last for an object. writes has the text of the write on a clock."""
    heads = [*HEADS, *of_players(name, DRAWING), "lit", "write"]
    cells = [[*cells_of(clock, name), writes.get(clock.clock, "")] for clock in clocks[first : final + 1]]
    widths = [max(len(row[place]) for row in [heads, *cells]) for place in range(len(heads))]
    return [row_of(row, widths) for row in [heads, *cells]] + ["", *NOTES, *of_players(name, DRAWING_NOTES)]


def row_of(cells, widths):
    """A row of the table: its cells to the right in their widths, the last one to the left."""
    return "  ".join([*(cell.rjust(width) for cell, width in zip(cells[:-1], widths)), cells[-1]]).rstrip()


def cells_of(clock, name):
    """The cells of a clock, one for each head but that of the write."""
    column = "-" if clock.clock < BLANK else str(clock.clock - BLANK)
    return [
        str(clock.clock),
        column,
        "blank" if clock.answer & UNSHOWN else "-",
        str(clock.slot),
        "late" if clock.late else "-",
        f"{clock.position}{'^' if clock.rose else ' '}",
        leds(clock.counter),
        str(clock.age),
        f"{signed(clock.motion):+}",
        "live" if clock.live else "-",
        *drawing_cells(clock.drawing),
        "lit" if name in lit(clock.answer) else "-",
    ]


def drawing_cells(drawing):
    """The cells of a player's pixel and of the clocks that it has been shown; none for any other object."""
    if not drawing:
        return []
    pixel, shown = drawing
    is_drawn = pixel != NO_PIXEL
    return [str(pixel) if is_drawn else "-", str(shown) if is_drawn or shown else "-"]


def leds(value):
    """The six bits of a counter's value as lamps, the highest first."""
    return "".join(LED_ON if value >> bit & 1 else LED_OFF for bit in range(LEDS - 1, -1, -1))


def first_strobed(lines):
    """The object that moves whose position strobe comes first in these lines of writes; M0 where none is strobed."""
    strobes = {REGISTERS[movable.strobe].address: name for name, movable in MOVABLE.items()}
    addresses = (write[-2] for writes in lines for write in writes)
    return next((strobes[address] for address in addresses if address in strobes), "M0")
