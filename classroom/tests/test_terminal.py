"""Tests of colour in the terminal: whether it is written, and the look of each letter.
Run: python3 -m unittest classroom.tests.test_terminal"""

import re
import sys
import unittest
from itertools import product

sys.dont_write_bytecode = True

from classroom.lines import OBJECTS, Line
from classroom.television import NTSC, PAL, colour_of
from classroom.terminal import has_colour, look_of, nearest, television_look

BYTES = range(0, 256, 2)
TRUE = {"COLORTERM": "truecolor"}
STEPS = (0, 95, 135, 175, 215, 255)
TERMINAL_COLOURS = {
    **{16 + 36 * r + 6 * g + b: (STEPS[r], STEPS[g], STEPS[b]) for r, g, b in product(range(6), repeat=3)},
    **{232 + step: (8 + 10 * step,) * 3 for step in range(24)},
}
LETTERS = {"38;5;16": (0, 0, 0), "38;5;231": (255, 255, 255)}
LOOK = re.compile("\x1b\\[(38;5;[0-9]+);48;(2|5);([0-9;]+)m")


class Stream:
    """A stream that is a terminal or not."""

    def __init__(self, terminal):
        self.terminal = terminal

    def isatty(self):
        """Whether it is a terminal."""
        return self.terminal


def line_of(objects, colours):
    """A line that begins with these object bytes and colour bytes."""
    return Line(bytes(objects).ljust(160, b"\0"), bytes(colours).ljust(160, b"\0"))


def parts(look):
    """The colour of the letter and of what is behind it, of which the latter is a number for 256 colours."""
    match = LOOK.fullmatch(look)
    numbers = tuple(int(number) for number in match[3].split(";"))
    return LETTERS[match[1]], numbers if match[2] == "2" else numbers[0]


def luminance(colour):
    """The relative luminance of WCAG 2."""
    scaled = [part / 255 for part in colour]
    red, green, blue = [part / 12.92 if part <= 0.03928 else ((part + 0.055) / 1.055) ** 2.4 for part in scaled]
    return 0.2126 * red + 0.7152 * green + 0.0722 * blue


def contrast(one, other):
    """The contrast ratio of WCAG 2."""
    low, high = sorted((luminance(one), luminance(other)))
    return (high + 0.05) / (low + 0.05)


def distance(one, other):
    """The square of the distance of two colours."""
    return sum((a - b) ** 2 for a, b in zip(one, other))


class Whether(unittest.TestCase):
    def test_auto(self):
        colourful = {"TERM": "xterm-256color"}
        cases = [
            (True, colourful, True),
            (True, {"TERM": "linux"}, True),
            (True, {**colourful, "NO_COLOR": ""}, True),
            (True, {**colourful, "NO_COLOR": "1"}, False),
            (True, {**colourful, "NO_COLOR": "0"}, False),
            (True, {"TERM": "dumb"}, False),
            (True, {}, False),
            (False, colourful, False),
            (False, {**colourful, **TRUE}, False),
            (False, {**colourful, "NO_COLOR": ""}, False),
        ]
        for terminal, environment, expected in cases:
            self.assertIs(bool(has_colour("auto", Stream(terminal), environment)), expected, (terminal, environment))

    def test_always_and_never(self):
        environments = ({}, {"TERM": "xterm"}, {"TERM": "dumb"}, {"TERM": "xterm", "NO_COLOR": "1"})
        for stream, environment in product((Stream(True), Stream(False), None), environments):
            self.assertIs(has_colour("always", stream, environment), True)
            self.assertIs(has_colour("never", stream, environment), False)

    def test_closed_output_has_no_colour(self):
        self.assertFalse(has_colour("auto", None, {"TERM": "xterm"}))


class Contrast(unittest.TestCase):
    def test_the_formula(self):
        self.assertAlmostEqual(contrast((0, 0, 0), (255, 255, 255)), 21)
        self.assertAlmostEqual(contrast((119, 119, 119), (255, 255, 255)), 4.48, 2)

    def test_every_letter_over_the_true_colour(self):
        for standard, byte in product((NTSC, PAL), BYTES):
            colour = tuple(colour_of(standard, byte))
            letter, behind = parts(television_look(bytes(colour), True))
            self.assertEqual(behind, colour)
            self.assertGreaterEqual(contrast(letter, behind), 4, (standard.name, byte))
            self.assertEqual(contrast(letter, behind), max(contrast(each, behind) for each in LETTERS.values()))

    def test_every_letter_over_the_nearest_of_256_colours(self):
        for standard, byte in product((NTSC, PAL), BYTES):
            letter, number = parts(television_look(colour_of(standard, byte), False))
            self.assertGreaterEqual(contrast(letter, TERMINAL_COLOURS[number]), 4, (standard.name, byte))


class Nearest(unittest.TestCase):
    def test_the_colours_of_a_terminal_are_their_own(self):
        self.assertEqual(len(TERMINAL_COLOURS), 240)
        for number, colour in TERMINAL_COLOURS.items():
            found, same = nearest(colour)
            self.assertEqual((TERMINAL_COLOURS[found], same), (colour, colour), number)

    def test_no_other_colour_is_nearer(self):
        for standard, byte in product((NTSC, PAL), BYTES):
            colour = colour_of(standard, byte)
            number, found = nearest(colour)
            self.assertEqual(found, TERMINAL_COLOURS[number])
            least = min(distance(each, colour) for each in TERMINAL_COLOURS.values())
            self.assertEqual(distance(found, colour), least, (standard.name, byte))


class Looks(unittest.TestCase):
    def test_the_colour_of_the_column_in_each_standard(self):
        for standard, byte in product((NTSC, PAL), BYTES):
            look = look_of([line_of([1], [2])], standard, TRUE)
            for object_byte in (0, 1, 3, 63):
                self.assertEqual(parts(look("P", object_byte, byte))[1], tuple(colour_of(standard, byte)))

    def test_all_colours_only_where_the_terminal_has_them(self):
        for name, kind in (("truecolor", "2"), ("24bit", "2"), ("", "5"), ("256color", "5")):
            look = look_of([line_of([1], [2])], NTSC, {"COLORTERM": name})
            self.assertEqual(LOOK.fullmatch(look("P", 1, 2))[2], kind)
        self.assertEqual(LOOK.fullmatch(look_of([line_of([1], [2])], NTSC, {})("P", 1, 2))[2], "5")

    def test_blanked_is_black(self):
        for standard, byte in product((NTSC, PAL), (64, 65, 128, 255)):
            look = look_of([line_of([1], [2])], standard, TRUE)
            self.assertEqual(parts(look("-", byte, 0)), ((255, 255, 255), (0, 0, 0)))
        self.assertNotEqual(parts(look_of([line_of([1], [2])], PAL, TRUE)(".", 0, 0))[1], (0, 0, 0))

    def test_a_colour_in_any_line_is_enough(self):
        dark = line_of([1], [])
        self.assertTrue(LOOK.fullmatch(look_of([dark, line_of([], [0, 0, 8])], NTSC, {})("P", 1, 0)))
        self.assertFalse(LOOK.fullmatch(look_of([dark, dark], NTSC, {})("P", 1, 0)))

    def test_objects_where_no_colour_byte_is_set(self):
        for lines in ([], [line_of([1, 2, 4, 8, 16, 32, 64], [])]):
            look = look_of(lines, NTSC, TRUE)
            looks = [look("x", 1 << bit, 0) for bit in range(len(OBJECTS))]
            self.assertEqual(len(set(looks)), len(OBJECTS))
            for codes in looks:
                self.assertRegex(codes, "\\A\x1b\\[9[1-6]m\\Z")
            overlaps = {look("*", byte, 0) for byte in range(64) if bin(byte).count("1") > 1}
            self.assertEqual(overlaps, {"\x1b[7m"})
            self.assertEqual([look(".", 0, 0), look("-", 64, 0), look("-", 67, 0)], ["", "", ""])


if __name__ == "__main__":
    unittest.main()
