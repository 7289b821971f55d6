"""Tests of the television's picture: palettes, the pixels of each column, and the PNG file.
Run: python3 -m unittest classroom.tests.test_television"""

import random
import struct
import sys
import time
import unittest
import zlib
from itertools import groupby, product
from pathlib import Path

sys.dont_write_bytecode = True

from classroom.lines import Line
from classroom.television import NTSC, PAL, colour_of, palette_of, picture_rows, pixels_of, png, width_of

STANDARDS = (NTSC, PAL)
PALETTES = (Path(__file__).resolve().parent.parent / "palettes.txt").read_text("ascii").splitlines()
SIZES = {  # pixels of a row at a scale: 160 columns, each 12/7 of a line's height wide, and 14.75 / 3.546894 / 2 for PAL
    (NTSC, 1): 274,
    (NTSC, 2): 549,
    (NTSC, 4): 1097,
    (NTSC, 7): 1920,
    (NTSC, 32): 8777,
    (PAL, 1): 333,
    (PAL, 2): 665,
    (PAL, 4): 1331,
    (PAL, 8): 2661,
    (PAL, 32): 10646,
}


def pixels(row):
    """The pixels of a row, three bytes each."""
    return [row[at : at + 3] for at in range(0, len(row), 3)]


def mixed_line(seed):
    """A line of object and colour bytes by chance, blanked columns among them."""
    chance = random.Random(seed)
    objects = bytes(chance.choice((0, 1, 5, 63, 64)) for _ in range(160))
    return Line(objects, bytes(chance.randrange(0, 256, 2) for _ in range(160)))


class Palettes(unittest.TestCase):
    def test_the_file_has_a_row_for_each_colour_byte_in_order(self):
        rows = [row for row in PALETTES if not row.startswith("#")]
        self.assertEqual(len(rows), 128)
        for number, row in enumerate(rows):
            self.assertRegex(row, r"\A[0-9A-F]{2} [0-9A-F]{6} [0-9A-F]{6}\Z")
            self.assertEqual(int(row[:2], 16), 2 * number)

    def test_each_standard_has_its_row(self):
        rows = [row.split() for row in PALETTES if not row.startswith("#")]
        self.assertEqual(palette_of(NTSC), [row[1] for row in rows])
        self.assertEqual(palette_of(PAL), [row[2] for row in rows])

    def test_colours_that_are_known(self):
        ntsc = [(NTSC, 0x00, "000000"), (NTSC, 0x0E, "ECECEC"), (NTSC, 0x1E, "FCFC54")]
        for standard, byte, colour in [*ntsc, (PAL, 0x00, "0B0B0B"), (PAL, 0x20, "3B2400")]:
            self.assertEqual(colour_of(standard, byte).hex().upper(), colour)

    def test_each_byte_has_its_colour(self):
        for standard, byte in product(STANDARDS, range(0, 256, 2)):
            self.assertEqual(colour_of(standard, byte).hex().upper(), palette_of(standard)[byte // 2])


class Shapes(unittest.TestCase):
    def test_sizes(self):
        for (standard, scale), width in SIZES.items():
            self.assertEqual(width_of(standard, scale), width, (standard.name, scale))

    def test_a_picture_of_that_width_and_so_many_rows_a_line(self):
        for standard, scale in SIZES:
            rows = picture_rows([mixed_line(1), mixed_line(2)], standard, scale)
            self.assertEqual(len(rows), 2 * scale)
            self.assertEqual({len(row) for row in rows}, {3 * width_of(standard, scale)})

    def test_a_line_is_a_row_of_pixels_at_scale_1(self):
        lines = [mixed_line(seed) for seed in range(9)]
        for standard in STANDARDS:
            rows = picture_rows(lines, standard)
            self.assertEqual(len(rows), 9)
            self.assertEqual(rows, [picture_rows([line], standard)[0] for line in lines])

    def test_rows_of_a_line_are_equal_and_in_the_order_of_lines(self):
        lines = [mixed_line(seed) for seed in range(3)]
        rows = picture_rows(lines, NTSC, 3)
        self.assertEqual([rows[0]] * 3 + [rows[3]] * 3 + [rows[6]] * 3, rows)
        self.assertEqual([rows[0], rows[3], rows[6]], [picture_rows([line], NTSC, 3)[0] for line in lines])

    def test_no_lines_no_rows(self):
        self.assertEqual(picture_rows([], NTSC), [])


class Columns(unittest.TestCase):
    def test_each_column_has_its_pixels_and_no_other(self):
        for standard, scale in [(NTSC, 1), (NTSC, 2), (NTSC, 4), (PAL, 1), (PAL, 3), (PAL, 32)]:
            width = width_of(standard, scale)
            for column in (0, 1, 2, 79, 80, 81, 127, 158, 159):
                line = Line(bytes(160), bytes(0x1E if number == column else 0 for number in range(160)))
                row = pixels(picture_rows([line], standard, scale)[0])
                found = [number for number, pixel in enumerate(row) if pixel == colour_of(standard, 0x1E)]
                expected = [number for number in range(width) if column * width <= number * 160 < (column + 1) * width]
                self.assertEqual(found, expected, (standard.name, scale, column))
                self.assertEqual({bytes(row[number]) for number in set(range(width)) - set(found)}, {colour_of(standard, 0)})

    def test_columns_are_contiguous_in_order_and_at_least_a_pixel_wide(self):
        for standard, scale in SIZES:
            bytes_in_turn = bytes(0x1E if column % 2 else 0x40 for column in range(160))
            (row, *_) = picture_rows([Line(bytes(160), bytes_in_turn)], standard, scale)
            runs = [(pixel, len(list(run))) for pixel, run in groupby(pixels(row))]
            self.assertEqual([pixel for pixel, _ in runs], [colour_of(standard, byte) for byte in bytes_in_turn])
            widths = {count for _, count in runs}
            self.assertGreaterEqual(min(widths), 1)
            self.assertLessEqual(max(widths) - min(widths), 1)
            self.assertLess(abs(sum(widths) / len(widths) - standard.shape * scale), 1)

    def test_the_colours_of_a_line(self):
        for standard, seed in product(STANDARDS, range(5)):
            line = mixed_line(seed)
            row = pixels(picture_rows([line], standard)[0])
            width = width_of(standard, 1)
            for number, pixel in enumerate(row):
                column = number * 160 // width
                blanked = line.objects[column] >= 64
                self.assertEqual(pixel, bytes(3) if blanked else colour_of(standard, line.colours[column]))

    def test_blanked_columns_are_black_whatever_the_standard(self):
        self.assertNotEqual(colour_of(PAL, 0), bytes(3))
        for standard, byte, colour in product(STANDARDS, (64, 128, 255), (0, 0x1E)):
            line = Line(bytes([byte] * 8 + [0] * 152), bytes([colour] * 8 + [0x1E] * 152))
            row = pixels(picture_rows([line], standard)[0])
            end = -(-8 * width_of(standard, 1) // 160)
            self.assertEqual(set(row[:end]), {bytes(3)})
            self.assertEqual(set(row[end:]), {colour_of(standard, 0x1E)})

    def test_nothing_lit_is_not_black_in_pal(self):
        self.assertEqual(set(pixels(picture_rows([Line(bytes(160), bytes(160))], PAL)[0])), {colour_of(PAL, 0)})


class Files(unittest.TestCase):
    def test_read_back(self):
        for standard, scale in ((NTSC, 1), (PAL, 1), (NTSC, 4)):
            rows = picture_rows([mixed_line(seed) for seed in range(7)], standard, scale)
            self.assertEqual(pixels_of(png(rows)), rows)

    def test_the_structure(self):
        rows = picture_rows([mixed_line(seed) for seed in range(5)], NTSC, 2)
        data = png(rows)
        self.assertEqual(data[:8], bytes([137, 80, 78, 71, 13, 10, 26, 10]))
        chunks, at = [], 8
        while at < len(data):
            (length,) = struct.unpack(">I", data[at : at + 4])
            kind, body = data[at + 4 : at + 8], data[at + 8 : at + 8 + length]
            self.assertEqual(data[at + 8 + length : at + 12 + length], struct.pack(">I", zlib.crc32(kind + body)))
            chunks.append((kind, body))
            at += 12 + length
        self.assertEqual(at, len(data))
        self.assertEqual([kind for kind, _ in chunks], [b"IHDR", b"IDAT", b"IEND"])
        self.assertEqual(struct.unpack(">IIBBBBB", chunks[0][1]), (549, 10, 8, 2, 0, 0, 0))
        self.assertEqual(zlib.decompress(chunks[1][1]), b"".join(b"\0" + row for row in rows))
        self.assertEqual(chunks[2][1], b"")

    def test_what_is_not_read(self):
        good = png(picture_rows([mixed_line(1)], NTSC))
        for data in (b"", b"GIF89a", good[1:], good.replace(b"IHDR" + good[16:25], b"IHDR" + good[16:24] + b"\x10")):
            with self.assertRaisesRegex(ValueError, "^found "):
                pixels_of(data)


class Speed(unittest.TestCase):
    def test_the_longest_tape_within_a_few_seconds(self):
        line = mixed_line(1)
        lines = [Line(line.objects, line.colours[number % 160 :] + line.colours[: number % 160]) for number in range(32767)]
        begun = time.process_time()
        data = png(picture_rows(lines, NTSC))
        self.assertLess(time.process_time() - begun, 5)
        self.assertEqual(struct.unpack(">II", data[16:24]), (274, 32767))


if __name__ == "__main__":
    unittest.main()
