"""The emulator's scenes: reading their files, and what a line's bytes show in the emulator's way."""

import re
import sys
from functools import lru_cache
from pathlib import Path
from typing import NamedTuple

sys.path.insert(0, str(Path(__file__).resolve().parent.parent))

from classroom.lines import BLANK, COLUMNS, LATCHES, UNSHOWN
from classroom.registers import REGISTERS
from classroom.tape_forms import TapeError, unpack

FOLDER = Path(__file__).resolve().parent
LINES = 6
BITS = {"P": 0b000101, "Q": 0b001010, "B": 0b110000}  # of an object byte: P0 and M0, P1 and M1, BL and PF
PLAYERS_FIRST, PLAYFIELD_FIRST = "PQB", "BPQ"  # the colour orders: CTRLPF bit 2 clear, and set
PRIORITY = 0x04  # CTRLPF's bit for the playfield first


class Kind(NamedTuple):
    """What scenes give of the last line's columns: its name, a column as a regular expression, the characters of a
    column, and the columns in words."""

    name: str
    column: str
    width: int
    words: str


PICTURES = Kind("pictures", "[PQB.]", 1, f"{COLUMNS} columns of P, Q, B or .")
COLOURS = Kind("colours", "[0-9A-F][02468ACE]", 2, f"{COLUMNS} colour bytes with bit 0 clear")


class Stored(NamedTuple):
    """A file of scenes: how many it holds, and of which kind."""

    count: int
    kind: Kind


FILES = {
    "emulator_scenes.txt": Stored(150, PICTURES),
    "colours.txt": Stored(150, COLOURS),
    "colours_mid.txt": Stored(75, COLOURS),
    "sizes.txt": Stored(150, COLOURS),
    "comb.txt": Stored(75, COLOURS),
    "resize.txt": Stored(75, COLOURS),
}


class Scene(NamedTuple):
    """A scene: its name in messages; its tape, as bytes and as lines of writes; what the emulator showed and latched."""

    name: str
    tape: bytes
    lines: list
    shown: str
    latches: str

    def writes(self, name):
        """The writes to a register, as pairs of clock and value."""
        register = REGISTERS[name].address
        return [(clock, value) for writes in self.lines for clock, address, value in writes if address == register]


def scenes_in(file_name, text):
    """The scenes of a file's text, by the file's name. Fails with ValueError where these are not so many well-formed ones
    as a file of that name holds."""
    count, kind = FILES[file_name]
    rows = text.splitlines()
    if len(rows) != count:
        raise ValueError(f"found {len(rows)} scenes: expected {count}")
    return [scene_in(kind, f"scene {number} of {file_name}", row) for number, row in enumerate(rows, start=1)]


def scene_in(kind, name, row):
    """The scene in a row of a file. Fails with ValueError, which names the scene, where it is not well-formed."""
    cx = f"cx(?: [0-9A-F]{{2}}){{{len(LATCHES)}}}"
    match = re.fullmatch(f"((?:[0-9A-F]{{2}})+) ((?:{kind.column}){{{COLUMNS}}}) ({cx})", row)
    if match is None:
        raise ValueError(f"{name} is not well-formed: expected a tape, {kind.words}, and cx with {len(LATCHES)} bytes")
    digits, shown, latches = match.groups()
    tape = bytes.fromhex(digits)
    try:
        lines = unpack(tape)
    except TapeError as error:
        raise ValueError(f"{name} has a damaged tape: {error}") from None
    if len(lines) != LINES:
        raise ValueError(f"{name} has {len(lines)} lines: expected {LINES}")
    scene = Scene(name, tape, lines, shown, latches)
    if kind == PICTURES and (not scene.writes("CTRLPF") or any(clock >= BLANK for clock, _, _ in lines[-1])):
        expected = "CTRLPF written, and no write in a column of the last line"
        raise ValueError(f"{name} leaves its colour order open: expected {expected}")
    return scene


def shown_by(kind, scene, line):
    """What a line's bytes show, as a scene of this kind gives it for its last line."""
    return drawn(line.objects, colour_order(scene)) if kind == PICTURES else line.colours.hex().upper()


def colour_order(scene):
    """The colour order of a scene's last line, by the CTRLPF written last."""
    return order_by(scene.writes("CTRLPF")[-1][1])


def order_by(control):
    """The colour order by the value of CTRLPF."""
    return PLAYFIELD_FIRST if control & PRIORITY else PLAYERS_FIRST


def drawn(line, order):
    """A line's object bytes as the emulator draws them in a colour order."""
    return "".join(colour(byte, order) for byte in line)


@lru_cache(maxsize=None)
def colour(byte, order):
    """The first letter of the order that an object byte has; `.` where nothing is lit or the column is blanked."""
    if byte & UNSHOWN:
        return "."
    return next((letter for letter in order if byte & BITS[letter]), ".")
