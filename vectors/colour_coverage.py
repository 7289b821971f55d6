"""What scenes with colours cover of the rule of colour. Each function gives the names found in the columns of a last line.
A thing is `seen` in a column that would have another colour without it."""

from colour_rule import (
    BALL,
    BY_LETTER,
    HALF,
    SCORE,
    colour_in,
    colour_shown,
    is_score,
    of_half,
    register_shown,
)
from columns import COLOUR_REGISTERS, READ
from classroom.lines import OBJECTS, UNSHOWN, lit
from scenes import BITS, PRIORITY, colour, order_by

TEAMS = {"P": "P0 or M0", "Q": "P1 or M1", "B": "BL or PF"}
ORDERS = [f"{TEAMS[shown]} over {TEAMS[under]}" for shown, under in ("PQ", "PB", "QB", "BP", "BQ")]
BITS_2_AND_1 = ("neither", "bit 1 alone", "bit 2 alone", "both")  # by their value
UNDER_BIT_2 = "bit 1 under bit 2"
SEEN_BITS = ("bit 2 clear", "bit 2 set", "bit 1 clear", "bit 1 set", UNDER_BIT_2)
OVER_SCORE = {"P": "P0 or M0 over PF on the right", "Q": "P1 or M1 over PF on the left", "B": "BL over PF"}
LATE_BLANK = range(8)  # the columns that an HMOVE in the blank can blank
BLANKS = ("in columns 0-7", "in others", "over the playfield", "seen")
SCORES = ("COLUP0 on the left", "in column 79", "in column 80", "COLUP1 on the right", *OVER_SCORE.values())


def blanks(columns):
    """Where blanked columns are, whether PF0 would light one, and whether one is seen: no register has colour 00."""
    names = []
    for column in (column for column in columns if column.byte & UNSHOWN):
        late = column.number in LATE_BLANK
        names.append("in columns 0-7" if late else "in others")
        names += ["over the playfield"] * (late and column.held["PF0"] >> 4 + column.number // 4 & 1)
        names += ["seen"] * all(colour_in(column.held, name) for name in COLOUR_REGISTERS)
    return names


def bits_2_and_1(columns):
    """The values of CTRLPF's bits 2 and 1."""
    return [BITS_2_AND_1[column.held["CTRLPF"] >> 1 & 3] for column in columns]


def seen_bits(columns):
    """The values of CTRLPF's bits 2 and 1 that are seen, and whether it is seen that bit 2 puts the score out of effect."""
    names = []
    for column in columns:
        control = column.held["CTRLPF"]
        for name, bit in (("bit 2", PRIORITY), ("bit 1", SCORE)):
            if colour_shown(column, CTRLPF=control ^ bit) != colour_shown(column):
                names.append(f"{name} {'set' if control & bit else 'clear'}")
        if control & PRIORITY and control & SCORE and shown_first(column) == "B" and not column.byte & BALL:
            names += [UNDER_BIT_2] * unlike(column, "COLUPF", of_half(column.number))
    return names


def scores(columns):
    """What is seen of the score: its two colours, unlike each other and COLUPF's, and what shows over the playfield."""
    names = []
    for column in columns:
        if not is_score(column.held["CTRLPF"]) or "PF" not in lit(column.byte):
            continue
        side, ours, other = ("left", "COLUP0", "COLUP1") if column.number < HALF else ("right", "COLUP1", "COLUP0")
        letter = shown_first(column)
        if BY_LETTER[letter] == other or (letter == "B" and column.byte & BALL):
            names += [OVER_SCORE[letter]] * unlike(column, BY_LETTER[letter], ours)
        elif letter == "B" and unlike(column, ours, other, "COLUPF"):
            names += [f"{ours} on the {side}", f"in column {column.number}"]
    return names


def orders(columns):
    """Which objects are seen to show over which."""
    names = []
    for column in columns:
        letter = shown_first(column)
        for under in TEAMS:
            alone = column._replace(byte=column.byte & BITS[under])
            if letter in TEAMS and alone.byte and colour_shown(alone) != colour_shown(column):
                names.append(f"{TEAMS[letter]} over {TEAMS[under]}")
    return names


def registers_seen(columns):
    """The registers whose colour is shown, unlike those in the three others."""
    return [name for column in columns for name in register_seen(column)]


def objects_seen(columns):
    """The objects that are lit alone, or `nothing`, where the colour shown is unlike those in the three other registers."""
    return [(*lit(column.byte), "nothing")[0] for column in columns if len(lit(column.byte)) < 2 and register_seen(column)]


def register_seen(column):
    """The register whose colour a column shows, if the three others have other colours; none for a blanked column."""
    if column.byte & UNSHOWN:
        return []
    name = register_shown(column.number, column.byte, column.held["CTRLPF"])
    return [name] * unlike(column, name, *(other for other in COLOUR_REGISTERS if other != name))


def odd_shown(columns):
    """The registers whose colour is shown while their bit 0 is set."""
    shown = [column for column in columns if not column.byte & UNSHOWN]
    found = [(register_shown(column.number, column.byte, column.held["CTRLPF"]), column.held) for column in shown]
    return [name for name, held in found if held[name] & 1]


def rewritten(columns):
    """The registers that get another value on a column's clock."""
    return [name for column in columns for name in changed(column)]


def late_seen(columns):
    """The registers rewritten so that a write one clock later would give that column another colour."""
    pairs = [(at, name) for at in columns for name in changed(at)]
    return [name for at, name in pairs if colour_shown(at, **{name: at.before[name]}) != colour_shown(at)]


def early_seen(columns):
    """The registers rewritten so that a write one clock earlier would give the column before another colour."""
    pairs = [(at, after.held, name) for at, after in zip(columns, columns[1:]) for name in changed(after)]
    return [name for at, held, name in pairs if colour_shown(at, **{name: held[name]}) != colour_shown(at)]


def changed(column):
    """The registers that have another value in a column than at the clock before."""
    return [] if column.held is column.before else [name for name in READ if column.held[name] != column.before[name]]


def shown_first(column):
    """The letter of what a column shows: P, Q, B, or `.` for the background and for a blanked column."""
    return colour(column.byte, order_by(column.held["CTRLPF"]))


def unlike(column, name, *others):
    """Whether the colour in a register is none of those in others."""
    return colour_in(column.held, name) not in [colour_in(column.held, other) for other in others]


# The rows on colour: title, the names counted, and what finds them in the columns of a last line.
COLOUR_ROWS = (
    ("blanked columns", BLANKS, blanks),
    ("CTRLPF bits 2 and 1 in the last line", BITS_2_AND_1, bits_2_and_1),
    ("CTRLPF bits seen", SEEN_BITS, seen_bits),
    ("score seen", SCORES, scores),
    ("order seen", ORDERS, orders),
    ("register seen", COLOUR_REGISTERS, registers_seen),
    ("colour seen of", (*OBJECTS, "nothing"), objects_seen),
    ("bit 0 set in a colour shown", COLOUR_REGISTERS, odd_shown),
    ("rewritten in a column", READ, rewritten),
    ("rewritten, one clock later would be seen", READ, late_seen),
    ("rewritten, one clock earlier would be seen", READ, early_seen),
)
