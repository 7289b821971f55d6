"""What scenes with colours cover of the players' sizes. Each function gives the names found in the columns of a last
line. A write a clock earlier or later would be `seen` where the line's colours would be others with it."""

import re
from functools import partial

from colour_rule import colour_shown
from size_rule import PIXELS, is_delayed, is_reflected, lit_by, lit_columns
from size_rule import pixels_shown, resizings, size_in, sizes_read
from classroom.lines import UNSHOWN

PLAYERS = {"P0": 0b000001, "P1": 0b000010}  # each with its bit of an object byte
WORDS = {1: "single", 2: "double", 4: "quadruple"}  # by the size
HOW = ("", " and reflected", " and delayed")
LIT_SIZES = [f"{word}{how}" for how in HOW for word in WORDS.values()]
CHANGES = [f"{WORDS[old]} to {WORDS[new]}" for old in WORDS for new in WORDS if old != new]
PLACES = ("first", "another", "last")


def lit_sizes(player, columns):
    """The sizes in which a player is lit, and whether it is reflected then, or delayed: shows its old graphic."""
    names = []
    for held in (columns[number].held for number in lit_columns(columns, player)):
        found = (True, is_reflected(held, player), is_delayed(held, player))
        names += [f"{WORDS[size_in(held, player)]}{how}" for how, is_so in zip(HOW, found) if is_so]
    return names


def lit_runs(player, size, columns):
    """How many columns side by side light a player of this size: whole runs, with an unlit column on both sides, in a
    line in which its size is not rewritten."""
    if set(sizes_read(columns, player)) != {size}:
        return []
    lit_now = lit_columns(columns, player)
    marks = "".join("?" if column.byte & UNSHOWN else "#" if column.number in lit_now else "." for column in columns)
    return [len(run) for run in re.findall(r"(?<=\.)#+(?=\.)", marks)]


def changes(player, columns):
    """From which size to which a player's is rewritten while a copy is drawn."""
    return [f"{WORDS[change.old]} to {WORDS[change.new]}" for change in resizings(columns, player)]


def places(player, columns):
    """The pixels in which a player's size is rewritten: those that the write's column would show without it."""
    names = []
    for change in resizings(columns, player):
        found = {PLACES[(pixel > 0) + (pixel == PIXELS - 1)] for pixel in change.pixels.values()}
        names += found if len(found) == 1 else []
    return names


def moved_seen(later, columns):
    """The players resized while drawn by a write that would be seen one clock later, or one clock earlier."""
    pairs = [(player, change) for player in PLAYERS for change in resizings(columns, player)]
    return [player for player, change in pairs if is_moved_seen(columns, player, change, later)]


def is_moved_seen(columns, player, change, later):
    """Whether the line's colours would be others with a write one clock later, or earlier, wherever the copy began."""
    sizes = sizes_read(columns, player)
    sizes[change.at if later else change.at - 1] = change.old if later else change.new
    return all(is_seen(columns, player, lit_by(columns, player, pixels_shown(start, sizes))) for start in change.pixels)


def is_seen(columns, player, other):
    """Whether a line's colours would be others if these columns lit a player."""
    unlike = [columns[number] for number in other ^ lit_columns(columns, player)]
    turned = [column._replace(byte=column.byte ^ PLAYERS[player]) for column in unlike]
    return list(map(colour_shown, unlike)) != list(map(colour_shown, turned))


# The rows on sizes: title, the names counted, and what finds them in the columns of a last line.
SIZE_ROWS = (
    *((f"lit {player} is", LIT_SIZES, partial(lit_sizes, player)) for player in PLAYERS),
    *(
        (f"columns of a lit run of {word} {player}", range(size, 8 * size + 1, size), partial(lit_runs, player, size))
        for player in PLAYERS
        for size, word in WORDS.items()
        if size > 1
    ),
    *((f"{player} resized while drawn", CHANGES, partial(changes, player)) for player in PLAYERS),
    *((f"{player} resized in its pixel", PLACES, partial(places, player)) for player in PLAYERS),
    ("resized, one clock later would be seen", PLAYERS, partial(moved_seen, True)),
    ("resized, one clock earlier would be seen", PLAYERS, partial(moved_seen, False)),
)
