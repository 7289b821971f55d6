"""Tests of the lines of a tape: the objects lit, the cutting of line_bytes' output, the latches, and how a listing ends.
Run: python3 -m unittest classroom.tests.test_lines"""

import sys
import unittest
from pathlib import Path

sys.dont_write_bytecode = True

from classroom.lines import BLANK, CLOCKS, COLUMNS, LINE_BYTES, OBJECTS, Line
from classroom.lines import ending, is_coloured, lines_of, lit, meaning, met, record_at_fault, span
from classroom.tests.cases import NO_LATCHES

REFUSALS = (Path(__file__).resolve().parent.parent.parent / "docs/REFUSALS.md").read_text("utf-8")
OVER_227 = "A record's clock is over 227. The clocks of a line are 0 to 227."

# The latch read-out of the chip's description: bits 7 and 6 of each byte.
READ_OUT = "M0-P1 M0-P0; M1-P0 M1-P1; P0-PF P0-BL; P1-PF P1-BL; M0-PF M0-BL; M1-PF M1-BL; BL-PF 0; P0-P1 M0-M1"


class Objects(unittest.TestCase):
    def test_the_sizes_of_a_line(self):
        self.assertEqual((CLOCKS, BLANK, COLUMNS, LINE_BYTES), (228, 68, 160, 320))

    def test_each_object(self):
        self.assertEqual(OBJECTS, ("P0", "P1", "M0", "M1", "BL", "PF"))
        for bit, name in enumerate(OBJECTS):
            self.assertEqual(lit(1 << bit), (name,))

    def test_each_overlap(self):
        for byte in range(64):
            self.assertEqual(lit(byte), tuple(name for bit, name in enumerate(OBJECTS) if byte & (1 << bit)))

    def test_none_in_blanked_columns(self):
        for byte in range(64, 256):
            self.assertEqual(lit(byte), ())

    def test_spans(self):
        self.assertEqual([span(7, 7), span(0, 0), span(7, 8), span(0, 159)], ["7", "0", "7-8", "0-159"])


class Colours(unittest.TestCase):
    def test_one_colour_byte_is_enough(self):
        dark = Line(bytes([63] * 160), bytes(160))
        self.assertFalse(is_coloured([]))
        self.assertFalse(is_coloured([dark, dark]))
        for column in (0, 159):
            colours = bytes(2 if number == column else 0 for number in range(160))
            self.assertTrue(is_coloured([dark, Line(bytes(160), colours)]))


class Cutting(unittest.TestCase):
    def test_lines_of_line_bytes(self):
        lines = [Line(bytes([number] * 160), bytes([2 * number] * 160)) for number in range(12)]
        self.assertEqual(lines_of(b"".join(line.objects + line.colours for line in lines)), lines)
        self.assertEqual(lines_of(b""), [])

    def test_each_byte_at_its_column(self):
        data = bytes(range(160)) + bytes(reversed(range(160)))
        self.assertEqual(lines_of(data), [Line(data[:160], data[160:])])

    def test_cut_short(self):
        for length in (1, 159, 160, 161, 319, 321, 480):
            with self.assertRaisesRegex(ValueError, f"^found {length} bytes: expected whole lines of 320$"):
                lines_of(bytes(length))


class Endings(unittest.TestCase):
    def test_each_latch(self):
        pairs = []
        for byte, names in enumerate(READ_OUT.split("; ")):
            for bit, pair in zip((7, 6), names.split()):
                latches = bytes(1 << bit if place == byte else 0 for place in range(8))
                self.assertEqual(met(latches), [] if pair == "0" else [pair])
                pairs += met(latches)
        self.assertEqual(len(set(pairs)), 15)
        self.assertEqual(met(b"\xff" * 8), pairs)
        self.assertEqual(met(b"\x3f" * 8), [])

    def test_latches_in_words(self):
        self.assertEqual(ending(NO_LATCHES, REFUSALS), (NO_LATCHES, "met: none", ()))
        last = "cx 80 00 80 00 00 00 00 C0"
        self.assertEqual(ending(last, REFUSALS), (last, "met: M0-P1 P0-PF P0-P1 M0-M1", ()))

    def test_each_refusal_has_a_meaning(self):
        meanings = [meaning(str(number), REFUSALS) for number in range(1, 12)]
        self.assertEqual(len(set(meanings)), 11)
        self.assertEqual(meanings[4], OVER_227)
        for number in ("0", "12", ""):
            self.assertEqual(meaning(number, REFUSALS), "See docs/REFUSALS.md.", number)

    def test_refusal_in_words(self):
        last = "refused 5 line 3 record 2"
        self.assertEqual(ending(last, REFUSALS), (last, OVER_227, (5, 3, 2)))

    def test_the_record_at_fault(self):
        for number in range(1, 12):
            end = ending(f"refused {number} line 3 record 2", REFUSALS)
            self.assertEqual(record_at_fault(end), 2 if number in (5, 6, 7) else None, number)
        self.assertEqual(record_at_fault(ending("refused 6 line 3 record 0", REFUSALS)), 0)
        for last in (NO_LATCHES, "tape too long"):
            self.assertIsNone(record_at_fault(ending(last, REFUSALS)))

    def test_too_long(self):
        self.assertEqual(ending("tape too long", REFUSALS), ("tape too long", "A tape has at most 65,536 bytes.", ()))

    def test_no_ending(self):
        for last in ("", "cx", "cx 00", "refused", "3 - - - - - -", "line P0 P1 M0 M1 BL PF"):
            with self.assertRaisesRegex(ValueError, "at the listing's end: expected latches or a refusal$"):
                ending(last, REFUSALS)


if __name__ == "__main__":
    unittest.main()
