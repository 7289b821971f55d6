"""The rule of a player's size, by which the coverage tells the pixel of a copy that a column shows. The comparison
itself does not use it."""

from typing import NamedTuple

import scenes  # so that the project's modules are found
from classroom.lines import COLUMNS, UNSHOWN, lit

PIXELS = 8
SIZES = {5: 2, 7: 4}  # by the copies in NUSIZ; 1 for all others
ONE_COPY = (0, 5, 7)  # the copies in NUSIZ that give one copy in a line
REFLECTED = 0x08  # REFP's bit
DELAYED = 0x01  # VDELP's bit
LONGEST = 6 + 4 * PIXELS  # columns from a copy's start to its end, at most


class Resizing(NamedTuple):
    """A player's size rewritten while a copy is drawn: the column's number, the size before and after it, and for each
    column in which that copy can have started the pixel that would be shown without it."""

    at: int
    old: int
    new: int
    pixels: dict


def copies_in(held, player):
    """The copies in a player's NUSIZ."""
    return held[f"NUSIZ{player[1]}"] & 7


def size_in(held, player):
    """The size of a player's copies."""
    return SIZES.get(copies_in(held, player), 1)


def is_reflected(held, player):
    """Whether a player is reflected."""
    return bool(held[f"REFP{player[1]}"] & REFLECTED)


def is_delayed(held, player):
    """Whether a player shows its old graphic."""
    return bool(held[f"VDELP{player[1]}"] & DELAYED)


def is_set(held, player, pixel):
    """Whether a pixel of a player is lit."""
    graphic = held[f"old GRP{player[1]}" if is_delayed(held, player) else f"GRP{player[1]}"]
    return bool(graphic >> (pixel if is_reflected(held, player) else PIXELS - 1 - pixel) & 1)


def lit_columns(columns, player):
    """The numbers of the columns that light a player."""
    return {column.number for column in columns if player in lit(column.byte)}


def lit_by(columns, player, pixels):
    """The numbers of the columns that light a player with these pixels by column; a blanked one does not."""
    shown = [(columns[at], pixel) for at, pixel in pixels.items() if not columns[at].byte & UNSHOWN]
    return {column.number for column, pixel in shown if is_set(column.held, player, pixel)}


def sizes_read(columns, player):
    """The size read in each column, and at the end, for index -1, that of the columns before."""
    return [*(size_in(column.held, player) for column in columns), size_in(columns[0].before, player)]


def pixels_shown(start, sizes):
    """The pixels by column of a player at rest with one copy in a line, which starts in this column."""
    return dict([*pixels_of_copy(start - COLUMNS, sizes), *pixels_of_copy(start, sizes)])


def pixels_of_copy(start, sizes):
    """The columns of the line in which a copy is drawn, each with its pixel. It starts in this column, a negative one
    in the line before, and is drawn from the fifth after it, or with size 2 or 4 from the sixth. A pixel ends that has
    been shown at least as often as the size read."""
    pixel = shown = 0
    for column in range(start + (5 if sizes[max(start, -1)] == 1 else 6), COLUMNS):
        if shown >= sizes[max(column, -1)]:
            pixel, shown = pixel + 1, 0
        if pixel == PIXELS:
            return
        shown += 1
        if column >= 0:
            yield column, pixel


def resizings(columns, player):
    """The rewritings of a player's size while a copy is drawn; none where NUSIZ gives more copies than one."""
    rewritten = [column.number for column in columns if is_resized(column, player)]
    held = [columns[0].before, *(column.held for column in columns)]
    if not rewritten or any(copies_in(one, player) not in ONE_COPY for one in held):
        return []
    sizes = sizes_read(columns, player)
    found = []
    for at in rewritten:
        unchanged = [*sizes[:at], *[sizes[at - 1]] * (COLUMNS - at), sizes[-1]]
        pixels = {start: pixels_shown(start, unchanged).get(at) for start in starts(columns, player, sizes, at)}
        if pixels and None not in pixels.values():
            found.append(Resizing(at, sizes[at - 1], sizes[at], pixels))
    return found


def is_resized(column, player):
    """Whether a column's clock rewrites a player's size."""
    return column.held is not column.before and size_in(column.held, player) != size_in(column.before, player)


def starts(columns, player, sizes, at):
    """The columns in which a player's copy can have started: those by which the line is lit as it is, and from which a
    copy can reach this column."""
    near = [(at - back) % COLUMNS for back in range(LONGEST)]
    lit_now = lit_columns(columns, player)
    return [start for start in near if lit_by(columns, player, pixels_shown(start, sizes)) == lit_now]
