"""What the scenes cover, as rows of counts: what the last lines light, the emulator latched and the tapes write, and what
is seen of the colours and of the players' sizes."""

from colour_coverage import COLOUR_ROWS
from columns import columns_of
from size_coverage import SIZE_ROWS
from classroom.lines import BLANK, LATCHES, OBJECTS, lit, met
from classroom.registers import NAMES, REGISTERS
from scenes import PICTURES, PLAYERS_FIRST, PLAYFIELD_FIRST, colour_order, drawn

PAIRS = [pair for pairs in LATCHES for pair in pairs]
BLANKED = 64  # object byte of a blanked column
CLOCKS = ("0-15", f"16-{BLANK - 1}", f"{BLANK}-227")
STROBES = ("RESP0", "RESP1", "RESM0", "RESM1", "RESBL")

# The fields counted by value: title, register, lowest bit, number of values.
FIELDS = (
    ("half byte of P0", "HMP0", 4, 16),
    ("half byte of P1", "HMP1", 4, 16),
    ("half byte of M0", "HMM0", 4, 16),
    ("half byte of M1", "HMM1", 4, 16),
    ("half byte of BL", "HMBL", 4, 16),
    ("copies of P0 and M0", "NUSIZ0", 0, 8),
    ("copies of P1 and M1", "NUSIZ1", 0, 8),
    ("width code of M0", "NUSIZ0", 4, 4),
    ("width code of M1", "NUSIZ1", 4, 4),
    ("width code of BL", "CTRLPF", 4, 4),
    ("CTRLPF bit 0, reflect", "CTRLPF", 0, 2),
    ("CTRLPF bit 1", "CTRLPF", 1, 2),
    ("REFP0", "REFP0", 3, 2),
    ("REFP1", "REFP1", 3, 2),
    ("VDELP0", "VDELP0", 0, 2),
    ("VDELP1", "VDELP1", 0, 2),
    ("VDELBL", "VDELBL", 0, 2),
)


def coverage(kind, scenes, last_lines):
    """The rows for these scenes of a kind, given the object bytes of their last lines."""
    fields = [
        counts(title, range(size), (values(scene, *place, size) for scene in scenes)) for title, *place, size in FIELDS
    ]
    return [
        counts("last line lights", OBJECTS, map(lighting, last_lines)),
        counts("last line has", ("overlaps", "blanked columns"), map(overlaps_and_blanks, last_lines)),
        counts("last line lights beside blanked columns", OBJECTS, map(lighting_beside_blanks, last_lines)),
        counts("last line has together", PAIRS, map(together, last_lines)),
        counts("emulator latched", ("any", *PAIRS), map(latched, scenes)),
        *(picture_rows if kind == PICTURES else colour_rows)(scenes, last_lines),
        counts("HMOVE at clock", CLOCKS, (clocks(scene.lines, "HMOVE") for scene in scenes)),
        counts("HMOVE at clock of the last line", CLOCKS, (clocks(scene.lines[-1:], "HMOVE") for scene in scenes)),
        counts("CXCLR at clock of the last line", CLOCKS, (clocks(scene.lines[-1:], "CXCLR") for scene in scenes)),
        counts("position strobe at clock", CLOCKS, (clocks(scene.lines, *STROBES) for scene in scenes)),
        *fields,
        "registers not written: " + (", ".join(unwritten(scenes)) or "none"),
    ]


def picture_rows(scenes, last_lines):
    """The row on the colour order of pictures."""
    return [counts("CTRLPF bit 2", ("clear", "set", "clear and seen", "set and seen"), map(bit_2, scenes, last_lines))]


def colour_rows(scenes, last_lines):
    """The rows on the colours, and on the players' sizes, of scenes with colours."""
    lines = list(map(columns_of, scenes, last_lines))
    return [counts(title, names, map(found, lines)) for title, names, found in (*COLOUR_ROWS, *SIZE_ROWS)]


def counts(title, names, found):
    """The row that says for each name how many scenes have it, given the names found in each scene."""
    found = [set(names_found) for names_found in found]
    return f"{title}: " + ", ".join(f"{name} {sum(name in one for one in found)}" for name in names)


def lighting(line):
    """The objects that a line lights."""
    return [name for byte in set(line) for name in lit(byte)]


def lighting_beside_blanks(line):
    """The objects that a line lights which has blanked columns."""
    return lighting(line) if BLANKED in line else []


def together(line):
    """The pairs of objects that light a column of a line together."""
    return [pair for byte in set(line) for pair in PAIRS if set(pair.split("-")) <= set(lit(byte))]


def overlaps_and_blanks(line):
    """Which of overlaps and blanked columns a line has."""
    return ["overlaps"] * bool(together(line)) + ["blanked columns"] * (BLANKED in line)


def latched(scene):
    """The pairs that the emulator latched, and `any` where there is one."""
    pairs = met(bytes.fromhex(scene.latches.replace("cx", "")))
    return [*pairs, "any"] if pairs else []


def bit_2(scene, line):
    """Whether CTRLPF bit 2 is set, and whether it is seen: the other colour order would draw another picture."""
    name = "set" if colour_order(scene) == PLAYFIELD_FIRST else "clear"
    seen = drawn(line, PLAYFIELD_FIRST) != drawn(line, PLAYERS_FIRST)
    return [name, f"{name} and seen"] if seen else [name]


def clocks(lines, *names):
    """The ranges of clocks in which lines write to these registers."""
    found = [clock for writes in lines for clock, address, _ in writes if NAMES.get(address) in names]
    return [CLOCKS[(clock > 15) + (clock >= BLANK)] for clock in found]


def values(scene, name, bit, size):
    """The values that a scene writes to a field of a register: from this bit on, so many different ones."""
    return [(value >> bit) % size for _, value in scene.writes(name)]


def unwritten(scenes):
    """The registers that no scene writes."""
    return [name for name in REGISTERS if not any(scene.writes(name) for scene in scenes)]
