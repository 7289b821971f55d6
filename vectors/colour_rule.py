"""The rule of colour, by which the coverage tells what is seen: the register whose colour a column shows. The
comparison itself does not use it."""

from functools import lru_cache

from scenes import PRIORITY, colour, order_by  # finds the project's modules too
from classroom.lines import COLUMNS, UNSHOWN

BY_LETTER = {"P": "COLUP0", "Q": "COLUP1", "B": "COLUPF", ".": "COLUBK"}
SCORE = 0x02  # CTRLPF's bit for the playfield in the players' colours
HALF = COLUMNS // 2  # the first column of the right half
BALL = 0b010000  # of an object byte


def colour_shown(column, **changed):
    """The colour byte of a column, with some of its registers changed."""
    held = {**column.held, **changed} if changed else column.held
    return 0 if column.byte & UNSHOWN else colour_in(held, register_shown(column.number, column.byte, held["CTRLPF"]))


def colour_in(held, name):
    """The colour in a register: bit 0 is read as 0."""
    return held[name] & 0xFE


@lru_cache(maxsize=None)
def register_shown(number, byte, control):
    """The register whose colour a column shows that is not blanked, by its number, its object byte and CTRLPF."""
    letter = colour(byte, order_by(control))
    return of_half(number) if letter == "B" and is_score(control) and not byte & BALL else BY_LETTER[letter]


def is_score(control):
    """Whether the playfield takes the players' colours: CTRLPF bit 1 is set and bit 2 clear."""
    return control & (PRIORITY | SCORE) == SCORE


def of_half(number):
    """The register of the score's colour in a column with this number."""
    return "COLUP0" if number < HALF else "COLUP1"
