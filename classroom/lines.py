"""The lines of a tape as the proved programs give them: their bytes, the objects lit, the latches, and what a refusal means."""

from functools import lru_cache
from typing import NamedTuple

CLOCKS = 228  # of a line
BLANK = 68  # of these the horizontal blank, before column 0
COLUMNS = CLOCKS - BLANK
LINE_BYTES = 2 * COLUMNS  # what line_bytes writes for a line: object bytes, then colour bytes
OBJECTS = ("P0", "P1", "M0", "M1", "BL", "PF")  # bit 0 of an object byte first
UNSHOWN = 0xC0  # the bits of an object byte under which no object shows

RECORD_REFUSALS = (5, 6, 7)  # those of a single record

# The latches of each byte of the read-out, bit 7 first.
LATCHES = (
    ("M0-P1", "M0-P0"),
    ("M1-P0", "M1-P1"),
    ("P0-PF", "P0-BL"),
    ("P1-PF", "P1-BL"),
    ("M0-PF", "M0-BL"),
    ("M1-PF", "M1-BL"),
    ("BL-PF",),
    ("P0-P1", "M0-M1"),
)


class Line(NamedTuple):
    """The bytes of a line: an object byte and a colour byte for each column."""

    objects: bytes
    colours: bytes


class Replay(NamedTuple):
    """What the programs say of a tape: the lines that were run, and the last line of its listing."""

    lines: list
    last: str


def lines_of(line_bytes):
    """The lines of a tape, given as 160 object bytes and 160 colour bytes each. Fails with ValueError where the last is
    cut short."""
    if len(line_bytes) % LINE_BYTES != 0:
        raise ValueError(f"found {len(line_bytes)} bytes: expected whole lines of {LINE_BYTES}")
    starts = range(0, len(line_bytes), LINE_BYTES)
    return [Line(line_bytes[at : at + COLUMNS], line_bytes[at + COLUMNS : at + LINE_BYTES]) for at in starts]


def is_coloured(lines):
    """Whether a colour byte of these lines is not 0."""
    return any(any(line.colours) for line in lines)


@lru_cache(maxsize=None)
def lit(byte):
    """The names of the objects that an object byte lights."""
    if byte & UNSHOWN:
        return ()
    return tuple(name for bit, name in enumerate(OBJECTS) if byte >> bit & 1)


def span(first, final):
    """The numbers from the first to the last, or the only one."""
    return str(first) if first == final else f"{first}-{final}"


def met(latches):
    """The pairs that have met, by the eight latch bytes, in the order of the read-out."""
    return [pair for byte, pairs in zip(latches, LATCHES) for bit, pair in zip((7, 6), pairs) if byte >> bit & 1]


class Ending(NamedTuple):
    """A listing's last line and in words what it says; where it is a refusal, the number, the line and the record."""

    last: str
    words: str
    refused: tuple


def record_at_fault(end):
    """The index of the record that a refusal names; None where the tape was not refused or no record is at fault."""
    return end.refused[2] if end.refused and end.refused[0] in RECORD_REFUSALS else None


def ending(last, refusals):
    """What a listing's last line says. refusals is the text of docs/REFUSALS.md. Fails with ValueError on a line that ends no
    listing."""
    word, *rest = last.split() or [""]
    if word == "cx" and len(rest) == len(LATCHES):
        return Ending(last, " ".join(["met:", *(met(bytes.fromhex("".join(rest))) or ["none"])]), ())
    if word == "refused" and len(rest) == 5:
        return Ending(last, meaning(rest[0], refusals), (int(rest[0]), int(rest[2]), int(rest[4])))
    if last == "tape too long":
        return Ending(last, "A tape has at most 65,536 bytes.", ())
    raise ValueError(f"found {last!r} at the listing's end: expected latches or a refusal")


def meaning(number, refusals):
    """What a refusal's number means and what to do, by the text of docs/REFUSALS.md; for a number not in its table, its name."""
    for row in refusals.splitlines():
        cells = [cell.strip() for cell in row.split("|")]
        if len(cells) > 3 and cells[1] == number:
            return f"{cells[2]} {cells[3]}"
    return "See docs/REFUSALS.md."
