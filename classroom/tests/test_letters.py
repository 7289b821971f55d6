"""Tests of a tape's picture as text: letters, ruler, folds, overlaps, legend, the layouts for terminals, and looks.
Run: python3 -m unittest classroom.tests.test_letters"""

import re
import sys
import unittest
from itertools import combinations

sys.dont_write_bytecode = True

from classroom.letters import WHOLE, Layout, fitting_layout, legend, mark, not_run, overlaps, ruler, shown
from classroom.lines import Ending, Line
from classroom.tests.cases import NO_LATCHES, RULER, SHOWN, TENS

END = Ending(NO_LATCHES, "met: none", ())
CODES = re.compile("\x1b\\[[0-9;]*m")

# Each object's name and letter, by its bit in an object byte.
OBJECTS = (("P0", "P"), ("P1", "Q"), ("M0", "M"), ("M1", "N"), ("BL", "B"), ("PF", "F"))

ABOVE = Layout(80, above=True)


def line_of(bytes_at, colours=bytes(160)):
    """The line with these object bytes at these columns and 0 elsewhere."""
    objects = bytearray(160)
    for column, byte in bytes_at.items():
        objects[column] = byte
    return Line(bytes(objects), colours)


def filled(byte):
    """The line with this object byte in every column."""
    return Line(bytes([byte] * 160), bytes(160))


# The lines of the case that the chip's description prints.
PRINTED = [line_of({}), line_of({3: 4}), line_of({**dict.fromkeys(range(8), 64), 156: 4}), line_of({156: 4})]


class Letters(unittest.TestCase):
    def test_each_object(self):
        for bit, (_, letter) in enumerate(OBJECTS):
            self.assertEqual(mark(1 << bit), letter)

    def test_each_overlap(self):
        several = [byte for byte in range(64) if bin(byte).count("1") > 1]
        self.assertEqual(len(several), 57)
        for byte in several:
            self.assertEqual(mark(byte), "*")

    def test_blanked_and_nothing(self):
        self.assertEqual(mark(0), ".")
        for byte in range(64, 256):
            self.assertEqual(mark(byte), "-")

    def test_printed_case(self):
        self.assertEqual(shown(PRINTED, END), SHOWN)

    def test_letters_whatever_the_colours(self):
        coloured = [Line(line.objects, bytes(range(0, 256, 2)) + bytes(32)) for line in PRINTED]
        self.assertEqual(shown(coloured, END), SHOWN)


class Overlaps(unittest.TestCase):
    def test_each_pair(self):
        for (low, (one, _)), (high, (other, _)) in combinations(enumerate(OBJECTS), 2):
            line = line_of({7: 1 << low | 1 << high})
            self.assertEqual(overlaps(line.objects, range(160)), [f"7 {one} {other}"])

    def test_neighbours_with_the_same_objects_are_one(self):
        line = line_of({36: 5, 37: 5, 38: 5, 39: 7, 40: 1, 41: 5, 159: 48})
        self.assertEqual(overlaps(line.objects, range(160)), ["36-38 P0 M0", "39 P0 P1 M0", "41 P0 M0", "159 BL PF"])

    def test_none_in_blanked_columns(self):
        self.assertEqual(overlaps(bytes([64 + 5] * 160), range(160)), [])

    def test_beneath_their_own_line(self):
        lines = [line_of({3: 5}), line_of({4: 1}), line_of({5: 33, 6: 33, 8: 3})]
        rows = shown(lines, END)[3:8]
        self.assertEqual(rows[1], "      overlap 3 P0 M0")
        self.assertEqual(rows[2][:12], "    1 ....P.")
        self.assertEqual(rows[4], "      overlap 5-6 P0 PF, 8 P0 P1")

    def test_beside_the_number_where_that_stands_above(self):
        lines = [line_of({3: 5}), line_of({4: 1}), line_of({5: 33, 6: 33, 88: 3})]
        rows = shown(lines, END, layout=ABOVE)
        self.assertEqual(rows[2], "line 0: overlap 3 P0 M0")
        self.assertEqual(rows[3], "...*" + "." * 76)
        self.assertEqual(rows[4], "line 1")
        self.assertEqual(rows[6], "line 2: overlap 5-6 P0 PF")
        self.assertEqual([row for row in rows if row.startswith("line 2")], [rows[6], "line 2: overlap 88 P0 P1"])

    def test_a_new_row_where_the_width_is_passed(self):
        line = line_of({column: 5 for column in range(0, 40, 2)})
        for fold, first in ((41, "0 P0 M0, 2 P0 M0, 4 P0 M0"), (42, "0 P0 M0, 2 P0 M0, 4 P0 M0, 6 P0 M0")):
            rows = [row for row in shown([line], END, layout=Layout(fold)) if "overlap " in row]
            self.assertEqual(rows[0], "      overlap " + first)
            named = ", ".join(row.replace("      overlap ", "") for row in rows)
            self.assertEqual(named, ", ".join(f"{column} P0 M0" for column in range(0, 40, 2)))

    def test_no_row_passes_80_columns_where_the_number_stands_above(self):
        line = line_of({column: 5 for column in range(0, 160, 2)})
        rows = shown([line], END, layout=ABOVE)
        self.assertLessEqual(max(map(len, rows)), 80)
        named = [row.partition(": overlap ")[2] for row in rows if ": overlap " in row]
        self.assertGreater(len(named), 2)
        self.assertEqual(", ".join(named), ", ".join(f"{column} P0 M0" for column in range(0, 160, 2)))


class Ruler(unittest.TestCase):
    def test_every_column_is_read_downwards(self):
        for layout in (Layout(160), Layout(80), Layout(40), Layout(70), Layout(1), ABOVE):
            left = 0 if layout.above else 6
            for start in range(0, 160, layout.fold):
                columns = range(start, min(start + layout.fold, 160))
                rows = [row.ljust(left + layout.fold) for row in ruler(columns, layout)]
                for column in columns:
                    self.assertEqual("".join(row[left + column - start] for row in rows).strip(), str(column))

    def test_no_row_of_spaces_and_none_at_the_ends(self):
        self.assertEqual(ruler(range(160)), RULER)
        self.assertEqual(ruler(range(9)), ["      012345678"])
        self.assertEqual(ruler(range(9), ABOVE), ["012345678"])


class Folds(unittest.TestCase):
    def test_parts_make_the_row(self):
        line = Line(bytes(1 << column % 7 for column in range(160)), bytes(160))
        whole = shown([line], END)[3][6:]
        for fold, parts in ((160, 1), (80, 2), (40, 4), (70, 3), (1, 160)):
            rows = [row for row in shown([line], END, layout=Layout(fold)) if row.startswith("    0 ")]
            self.assertEqual("".join(row[6:] for row in rows), whole)
            self.assertEqual(len(rows), parts)

    def test_a_part_shows_every_line_under_its_ruler(self):
        rows = shown([line_of({79: 1}), line_of({80: 2})], END, layout=Layout(80))
        self.assertEqual(rows[:5], [*ruler(range(80)), "    0 " + "." * 79 + "P", "    1 " + "." * 80, ""])
        self.assertEqual(rows[5:10], [*ruler(range(80, 160)), "    0 " + "." * 80, "    1 Q" + "." * 79])

    def test_an_overlap_is_named_under_its_part(self):
        rows = shown([line_of({column: 3 for column in range(78, 83)})], END, layout=Layout(80))
        named = [row for row in rows if "overlap " in row]
        self.assertEqual(named, ["      overlap 78-79 P0 P1", "      overlap 80-82 P0 P1"])


class Terminals(unittest.TestCase):
    def test_the_layout_for_each_width(self):
        widths = {500: WHOLE, 167: WHOLE, 166: Layout(80), 87: Layout(80), 86: ABOVE, 80: ABOVE}
        widths.update({79: Layout(40), 47: Layout(40), 46: Layout(40), 45: Layout(39), 20: Layout(14), 16: Layout(10), 1: Layout(10)})
        for width, layout in widths.items():
            self.assertEqual(fitting_layout(width), layout, width)
        self.assertEqual(WHOLE, Layout(160, above=False))

    def test_every_row_of_the_picture_fits(self):
        line = line_of({**{column: 5 for column in range(0, 160, 3)}, 1: 64})
        for width in (500, 167, 166, 87, 86, 80, 79, 47, 46, 45, 40):
            rows = shown([line] * 3, END, layout=fitting_layout(width))
            self.assertLessEqual(max(len(row) for row in rows), width)

    def test_80_columns_are_two_bands_of_80_with_the_number_above(self):
        lines = [line_of({}), line_of({3: 4, 79: 1}), line_of({80: 2, 159: 32})]
        expected = [
            " " * 10 + TENS[10:80],
            "0123456789" * 8,
            "line 0",
            "." * 80,
            "line 1",
            "...M" + "." * 75 + "P",
            "line 2",
            "." * 80,
            "",
            " " * 20 + "1" * 60,
            TENS[80:] + TENS[:60],
            "0123456789" * 8,
            "line 0",
            "." * 80,
            "line 1",
            "." * 80,
            "line 2",
            "Q" + "." * 78 + "F",
            "",
            "legend: P = P0, Q = P1, M = M0, F = PF, . = nothing",
            NO_LATCHES,
            "met: none",
        ]
        self.assertEqual(shown(lines, END, layout=fitting_layout(80)), expected)


class Lines(unittest.TestCase):
    lines = [line_of({number: 1}) for number in range(12)]

    def rows(self, *chosen):
        """The rows for the chosen lines, without the ruler."""
        return shown(self.lines, END, chosen)[3:]

    def test_chosen(self):
        for first, final in ((0, 0), (0, 11), (3, 8), (11, 11)):
            numbers = [row for row in self.rows(first, final) if row[:6].strip().isdigit()]
            expected = [f"{number:5} " + ("." * number + "P").ljust(160, ".") for number in range(first, final + 1)]
            self.assertEqual(numbers, expected)

    def test_chosen_with_their_numbers_above(self):
        rows = shown(self.lines, END, (3, 8), ABOVE)
        self.assertEqual([row for row in rows if row.startswith("line ")], [f"line {number}" for number in range(3, 9)] * 2)

    def test_all_without_a_choice(self):
        self.assertEqual(shown(self.lines, END)[3:], self.rows(0, 11))

    def test_not_run(self):
        self.assertEqual(self.rows(10, 11)[-3], "legend: P = P0, . = nothing")
        self.assertEqual(self.rows(10, 12)[-3], "line 12 was not run; lines 0-11 were")
        self.assertEqual(self.rows(10, 40)[-3], "lines 12-40 were not run; lines 0-11 were")
        none_of_12 = shown(self.lines, END, (20, 40))
        self.assertEqual(none_of_12, ["lines 20-40 were not run; lines 0-11 were", NO_LATCHES, "met: none"])
        none_of_1 = shown(self.lines[:1], END, (1, 1))
        self.assertEqual(none_of_1[0], "line 1 was not run; line 0 was")
        self.assertEqual(not_run(3, 5, 0), "no line was run")

    def test_no_line(self):
        for chosen in (None, (0, 0), (3, 5)):
            self.assertEqual(shown([], END, chosen), ["no line was run", NO_LATCHES, "met: none"])

    def test_how_it_ended(self):
        refused = Ending("refused 5 line 1 record 0", "In words.", (5, 1, 0))
        self.assertEqual(shown(self.lines[:1], refused)[-2:], [refused.last, refused.words])


class Legend(unittest.TestCase):
    def test_each_mark_alone(self):
        names = [*((1 << bit, letter, name) for bit, (name, letter) in enumerate(OBJECTS))]
        for byte, letter, name in [*names, (3, "*", "overlap"), (64, "-", "blanked"), (0, ".", "nothing")]:
            self.assertEqual(legend([bytes([byte] * 160)], 160), [f"legend: {letter} = {name}"])

    def test_all(self):
        expected = "legend: P = P0, Q = P1, M = M0, N = M1, B = BL, F = PF, * = overlap, - = blanked, . = nothing"
        self.assertEqual(legend([bytes(range(64)), bytes([64])], 160), [expected])
        broken = ["legend: P = P0, Q = P1, M = M0, N = M1", "legend: B = BL, F = PF, * = overlap", "legend: - = blanked, . = nothing"]
        self.assertEqual(legend([bytes(range(64)), bytes([64])], 40), broken)

    def test_of_the_chosen_lines_alone(self):
        self.assertIn("legend: Q = P1", shown([filled(1), filled(2)], END, (1, 1)))


class Looks(unittest.TestCase):
    def look(self, character, object_byte, colour_byte):
        """A look by the colour byte; none for colour byte 0."""
        self.seen.add((character, object_byte, colour_byte))
        return f"\x1b[48;5;{colour_byte}m" if colour_byte else ""

    def setUp(self):
        self.seen = set()

    def test_a_run_of_one_look_has_its_codes_once_and_is_reset_at_its_end(self):
        colours = bytes([0] * 10 + [2] * 5 + [4] * 5 + [0] * 140)
        rows = shown([line_of({9: 1, 10: 1, 19: 2}, colours)], END, look=self.look)
        expected = "    0 .........P\x1b[48;5;2mP....\x1b[0m\x1b[48;5;4m....Q\x1b[0m" + "." * 140
        self.assertEqual(rows[3], expected)

    def test_a_look_gets_the_character_and_both_bytes_of_its_column(self):
        colours = bytes([0, 2, 4, 6] + [8] * 156)
        shown([line_of({0: 1, 1: 6, 2: 64}, colours)], END, look=self.look)
        self.assertEqual(self.seen, {("P", 1, 0), ("*", 6, 2), ("-", 64, 4), (".", 0, 6), (".", 0, 8)})

    def test_without_its_codes_the_text_is_the_plain_one(self):
        colours = bytes(2 * (column // 7) for column in range(160))
        lines = [line_of({5: 1, 6: 3, 81: 64}, colours), line_of({}, bytes(160)), filled(2)]
        for layout in (WHOLE, Layout(80), ABOVE, Layout(33)):
            rows = shown(lines, END, (0, 5), layout, self.look)
            self.assertTrue(any(CODES.search(row) for row in rows))
            self.assertEqual([CODES.sub("", row) for row in rows], shown(lines, END, (0, 5), layout))

    def test_every_row_ends_without_a_look(self):
        for row in shown([line_of({}, bytes([2] * 160))], END, layout=ABOVE, look=self.look):
            codes = CODES.findall(row)
            self.assertEqual(codes[1::2], ["\x1b[0m"] * (len(codes) // 2))
            self.assertEqual(len(codes) % 2, 0)

    def test_ruler_overlaps_and_legend_have_no_look(self):
        rows = shown([line_of({5: 3}, bytes([2] * 160))], END, look=self.look)
        self.assertEqual([number for number, row in enumerate(rows) if CODES.search(row)], [3])


if __name__ == "__main__":
    unittest.main()
