"""The television's picture of a tape: its columns in the colours of a standard and in the television's shape, as a PNG."""

import struct
import zlib
from fractions import Fraction
from functools import lru_cache
from pathlib import Path
from typing import NamedTuple

from classroom.lines import COLUMNS, UNSHOWN

PALETTES = Path(__file__).resolve().parent / "palettes.txt"
BLACK = bytes(3)
BLANKED = 1  # in place of the colour byte of a blanked column; no colour byte has bit 0 set
SIGNATURE = b"\x89PNG\r\n\x1a\n"


class Standard(NamedTuple):
    """A television standard: its name, its place in a row of palettes.txt, and how wide a column is for a line's height of 1.
    A colour clock is that many times as long as a square pixel of the standard's 4:3 picture, each field being half its lines."""

    name: str
    place: int
    shape: Fraction


NTSC = Standard("NTSC", 1, Fraction(12, 7))  # 12 3/11 MHz for square pixels, 3.579545 MHz for colour clocks
PAL = Standard("PAL", 2, Fraction(7375000, 3546894))  # 14.75 MHz for square pixels, 3.546894 MHz for colour clocks


@lru_cache(maxsize=None)
def palette_of(standard):
    """The 128 colours of a standard as `RRGGBB`; colour byte b has the one at b / 2."""
    rows = [row.split() for row in PALETTES.read_text("ascii").splitlines() if not row.startswith("#")]
    return [row[standard.place] for row in rows]


@lru_cache(maxsize=None)
def colour_of(standard, byte):
    """The three bytes, red, green and blue, of a colour byte."""
    return bytes.fromhex(palette_of(standard)[byte >> 1])


@lru_cache(maxsize=None)
def parts_of(standard):
    """The red, green and blue of each colour byte and of BLANKED, as a table of 256 bytes each."""
    return [bytes(part) for part in zip(*(BLACK if byte == BLANKED else colour_of(standard, byte) for byte in range(256)))]


def pixel_row(line, standard, columns=range(COLUMNS)):
    """The pixels, three bytes each, that show these columns of a line, or all; a blanked column is black."""
    colours = [BLANKED if byte & UNSHOWN else colour for byte, colour in zip(line.objects, line.colours)]
    pixels = bytes([colours[column] for column in columns])
    row = bytearray(3 * len(columns))
    for place, part in enumerate(parts_of(standard)):
        row[place::3] = pixels.translate(part)
    return bytes(row)


def width_of(standard, scale):
    """How many pixels wide the picture is at a scale."""
    return round(COLUMNS * standard.shape * scale)


def picture_rows(lines, standard, scale=1):
    """The rows of pixels, three bytes each, that show these lines: so many a line, its columns stretched to the width."""
    width = width_of(standard, scale)
    columns = [pixel * COLUMNS // width for pixel in range(width)]
    rows = []
    for line in lines:
        rows += [pixel_row(line, standard, columns)] * scale
    return rows


def png(rows):
    """The bytes of a PNG file with these rows of pixels, three bytes each; one row or more."""
    header = struct.pack(">IIBBBBB", len(rows[0]) // 3, len(rows), 8, 2, 0, 0, 0)  # 8 bits, red, green and blue
    packer = zlib.compressobj()
    data = b"".join([*(packer.compress(b"\0" + row) for row in rows), packer.flush()])
    return SIGNATURE + chunk(b"IHDR", header) + chunk(b"IDAT", data) + chunk(b"IEND", b"")


def chunk(kind, data):
    """A chunk of a PNG file: length, kind, data, check sum."""
    return struct.pack(">I", len(data)) + kind + data + struct.pack(">I", zlib.crc32(kind + data))


def pixels_of(data):
    """The rows of pixels of a PNG file that `png` wrote. Fails with ValueError on any other file."""
    if not data.startswith(SIGNATURE):
        raise ValueError("found no PNG file")
    chunks = dict(chunks_of(data[len(SIGNATURE) :]))
    width, height, *form = struct.unpack(">IIBBBBB", chunks[b"IHDR"])
    rows = zlib.decompress(chunks[b"IDAT"])
    length = 1 + 3 * width
    if form != [8, 2, 0, 0, 0] or len(rows) != height * length or any(rows[::length]):
        raise ValueError("found a PNG file of another form: expected 8 bits of red, green and blue, without filters")
    return [rows[at + 1 : at + length] for at in range(0, len(rows), length)]


def chunks_of(data):
    """The chunks of a PNG file after its signature: kind and data of each."""
    found = []
    while data:
        length = struct.unpack(">I", data[:4])[0]
        found.append((data[4:8], data[8 : 8 + length]))
        data = data[12 + length :]
    return found
