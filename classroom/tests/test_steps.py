"""Tests of the table of a line's clocks, by records made here and by those of the lessons. Needs target/bin/clock_bytes and
target/bin/line_bytes. Run: python3 -m unittest classroom.tests.test_steps"""

import re
import subprocess
import sys
import unittest
from functools import lru_cache
from itertools import product
from pathlib import Path

sys.dont_write_bytecode = True

from classroom.lines import OBJECTS, lines_of
from classroom.notation import assemble, parsed
from classroom.steps import Clock, clocks_of, first_strobed, leds, table

PROJECT = Path(__file__).resolve().parent.parent.parent
MOVABLE = OBJECTS[:5]
PLAYERS = OBJECTS[:2]
HEADS = "clock column blank slot late position counter age motion live lit write".split()
PLAYER_HEADS = "clock column blank slot late position counter age motion live pixel shown lit write".split()
BEGINNINGS = {"P0": 4, "P1": 12, "M0": 20, "M1": 26, "BL": 32}  # of an object's bytes in a record
LAMPS = {"●": "1", "○": "0"}
LESSONS = ("04-moving-left", "06-copies-and-sizes", "08-collision", "12-widths-and-ball", "16-stretched-halfway")
TAPES = [(PROJECT / f"lessons/{name}.tape").read_bytes() for name in LESSONS]

# A tape that lights all five objects that move, and moves each by another value.
MOVING = (
    "line\n 0 GRP0 $A5\n 3 GRP1 $FF\n 6 ENAM0 2\n 9 ENAM1 2\n 12 ENABL 2\n 15 NUSIZ0 $33\n 18 NUSIZ1 $07\n 21 CTRLPF $20\n"
    " 80 RESP0\n 100 RESP1\n 120 RESM0\n 140 RESM1\n 160 RESBL\n"
    "line\n 0 HMP0 +7\n 1 HMP1 -8\n 2 HMM0 -1\n 3 HMM1 +1\n 4 HMBL 0\n 9 HMOVE\n"
    "line\n 90 HMCLR\nline\n 30 HMOVE\n 200 HMOVE\nline\n"
)
REFUSED = "line\n 0 ENAM0 2\nline\n 228 RESM0\nline\n"


def card():
    """The values of the counter's card by its step rule, from 000000 on: shift right, and the new left bit is 1 exactly when the
    two rightmost bits were equal."""
    values = ["000000"]
    while len(values) < 40:
        last = values[-1]
        values.append(("1" if last[-1] == last[-2] else "0") + last[:-1])
    return values


def record(clock, answer=64, slot=16, late=0, **objects):
    """A record of a clock with these bytes for the objects named, and zeros for the others."""
    sizes = {name: 8 if name in PLAYERS else 6 for name in MOVABLE}
    return bytes([clock, answer, slot, late]) + b"".join(bytes(objects.get(name, size)) for name, size in sizes.items())


def records_with(changed):
    """The records of a line's clocks, those with these numbers changed."""
    return b"".join(changed.get(clock) or record(clock) for clock in range(228))


@lru_cache(maxsize=None)
def answered(program, data):
    """What a program writes for these bytes."""
    return subprocess.run([PROJECT / "target/bin" / program], input=data, stdout=subprocess.PIPE, check=True).stdout


def records_of(tape, number):
    """The records of a tape's line."""
    return answered("clock_bytes", number.to_bytes(2, "big") + tape)


def rows_of(clocks, name, first=0, final=227, writes=None):
    """The rows of a table as cells by their heads."""
    heads, *rows = table(clocks, name, first, final, writes or {})
    found = []
    for row in rows[: rows.index("")]:
        cells = row.split(None, len(heads.split()) - 1)
        found.append(dict(zip(heads.split(), cells + [""])))
    return found


class Records(unittest.TestCase):
    def test_each_byte_has_its_meaning(self):
        players = {"P0": (1, 1, 2, 3, 4, 1, 7, 2), "P1": (5, 0, 6, 7, 8, 0, 3, 4)}
        others = {"M0": (9, 1, 10, 11, 12, 0), "M1": (13, 0, 14, 15, 1, 1), "BL": (17, 1, 18, 19, 2, 1)}
        given = record(9, 5, 3, 1, **players, **others)
        expected = {
            "P0": Clock(9, 5, 3, True, 1, True, 2, 3, 4, True, (7, 2)),
            "P1": Clock(9, 5, 3, True, 5, False, 6, 7, 8, False, (3, 4)),
            "M0": Clock(9, 5, 3, True, 9, True, 10, 11, 12, False, ()),
            "M1": Clock(9, 5, 3, True, 13, False, 14, 15, 1, True, ()),
            "BL": Clock(9, 5, 3, True, 17, True, 18, 19, 2, True, ()),
        }
        for name, clock in expected.items():
            clocks = clocks_of(records_with({9: given}), name)
            self.assertEqual(clocks[9], clock)
            drawing = (0, 0) if name in PLAYERS else ()
            self.assertEqual(clocks[8], Clock(8, 64, 16, False, 0, False, 0, 0, 0, False, drawing))
            self.assertEqual(len(clocks), 228)

    def test_records_that_are_not_whole(self):
        for length in (0, 37, 38, 228 * 38 - 1, 228 * 38 + 1, 229 * 38):
            with self.assertRaisesRegex(ValueError, f"^found {length} bytes: expected 228 records of 38$"):
                clocks_of(bytes(length), "P0")

    def test_records_without_the_bytes_of_a_drawing(self):
        for name in MOVABLE:
            with self.assertRaisesRegex(ValueError, "^found 7752 bytes: expected 228 records of 38$"):
                clocks_of(bytes(228 * 34), name)


class Table(unittest.TestCase):
    def cells(self, name="M0", clock=100, **bytes_given):
        """The cells of a clock with these bytes."""
        clocks = clocks_of(records_with({clock: record(clock, **bytes_given)}), name)
        return rows_of(clocks, name, clock, clock)[0]

    def test_heads(self):
        for name in MOVABLE:
            expected = PLAYER_HEADS if name in PLAYERS else HEADS
            self.assertEqual(table(clocks_of(records_with({}), name), name, 0, 0, {})[0].split(), expected)

    def test_clock_and_column(self):
        rows = rows_of(clocks_of(records_with({}), "P0"), "P0")
        self.assertEqual([row["clock"] for row in rows], [str(clock) for clock in range(228)])
        self.assertEqual([row["column"] for row in rows], ["-"] * 68 + [str(column) for column in range(160)])

    def test_a_range_of_clocks(self):
        clocks = clocks_of(records_with({}), "P0")
        for first, final in ((0, 0), (227, 227), (3, 75), (0, 227), (68, 68)):
            self.assertEqual([int(row["clock"]) for row in rows_of(clocks, "P0", first, final)], [*range(first, final + 1)])

    def test_blank_by_the_answer_byte(self):
        for answer, expected in ((64, "blank"), (0, "-"), (63, "-"), (128, "blank"), (68, "blank")):
            self.assertEqual(self.cells(answer=answer)["blank"], expected)

    def test_slot_and_late_flag(self):
        self.assertEqual([self.cells(slot=slot)["slot"] for slot in (0, 7, 16)], ["0", "7", "16"])
        self.assertEqual([self.cells(late=late)["late"] for late in (0, 1)], ["-", "late"])

    def test_the_object(self):
        cells = self.cells(M0=(159, 0, 0b101100, 64, 9, 1), P0=(3, 1, 1, 1, 1, 0, 2, 1))
        expected = {"position": "159", "counter": "●○●●○○", "age": "64", "motion": "-7", "live": "live"}
        self.assertEqual({head: cells[head] for head in expected}, expected)
        cells = self.cells("P0", M0=(159, 0, 0b101100, 64, 9, 1), P0=(3, 1, 1, 2, 1, 0, 2, 1))
        expected = {"position": "3^", "counter": "○○○○○●", "age": "2", "motion": "+1", "live": "-"}
        self.assertEqual({head: cells[head] for head in expected}, expected)

    def test_the_drawing_of_a_player(self):
        for name, pixel, shown in product(PLAYERS, range(9), range(5)):
            cells = self.cells(name, **{name: (0, 0, 0, 0, 0, 0, pixel, shown)})
            expected = (str(pixel), str(shown)) if pixel < 8 else ("-", str(shown) if shown else "-")
            self.assertEqual((cells["pixel"], cells["shown"]), expected, (name, pixel, shown))

    def test_every_motion_value_has_its_sign(self):
        found = [self.cells(M0=(0, 0, 0, 0, motion, 0))["motion"] for motion in range(16)]
        self.assertEqual(found, "+0 +1 +2 +3 +4 +5 +6 +7 -8 -7 -6 -5 -4 -3 -2 -1".split())

    def test_lit_by_the_answer_byte(self):
        for name, byte in product(MOVABLE, (0, 1, 2, 4, 8, 16, 32, 21, 63, 64, 127)):
            expected = "lit" if byte < 64 and byte >> MOVABLE.index(name) & 1 else "-"
            self.assertEqual(self.cells(name, answer=byte)["lit"], expected, (name, byte))

    def test_the_write_of_a_clock(self):
        rows = rows_of(clocks_of(records_with({}), "M0"), "M0", 0, 9, {3: "ENAM0 $02", 9: "HMOVE"})
        self.assertEqual([row["write"] for row in rows], ["", "", "", "ENAM0 $02", "", "", "", "", "", "HMOVE"])

    def test_cells_stand_under_their_heads(self):
        for name, drawing in (("M0", ()), ("P1", (7, 4))):
            clocks = clocks_of(records_with({100: record(100, 6, 3, 1, **{name: (159, 1, 63, 64, 9, 1, *drawing)})}), name)
            heads, *rows = table(clocks, name, 99, 101, {100: "RESM0"})
            ends = [head.end() for head in re.finditer(r"\S+", heads)][:-1]
            for row in rows[: rows.index("")]:
                self.assertEqual(row, row.rstrip())
                for end in ends:
                    self.assertNotEqual(row[end - 2 : end].strip(), "")
                    self.assertEqual(row[end : end + 1].strip(), "")
            self.assertEqual(rows[1].index("RESM0"), heads.index("write"))

    def test_what_the_marks_mean_is_told(self):
        for name in MOVABLE:
            rows = table(clocks_of(records_with({}), name), name, 0, 0, {})
            told = " ".join(rows[rows.index("") :]).lower()
            for word in ("^", "16", "64", "counter", "card"):
                self.assertIn(word, told)
            for word in ("pixel: ", "shown: ", "nusiz"):
                self.assertEqual(word in told, name in PLAYERS, (name, word))


class Lamps(unittest.TestCase):
    def test_the_highest_bit_first(self):
        for value in range(64):
            self.assertEqual("".join(LAMPS[lamp] for lamp in leds(value)), f"{value:06b}")

    def test_the_card(self):
        self.assertEqual(len(set(card())), 40)
        self.assertEqual(card()[:3], ["000000", "100000", "110000"])


class Lessons(unittest.TestCase):
    def each_line(self):
        """Each line of some lessons: the tape, the line's number, and the line as line_bytes gives it."""
        for tape in [*TAPES, assemble(MOVING)]:
            for number, line in enumerate(lines_of(answered("line_bytes", tape))):
                yield tape, number, line

    def test_lit_is_what_line_bytes_lights(self):
        seen = set()
        for (tape, number, line), name in product(list(self.each_line()), MOVABLE):
            rows = rows_of(clocks_of(records_of(tape, number), name), name)
            found = [row["lit"] == "lit" for row in rows]
            bit = MOVABLE.index(name)
            self.assertEqual(found[68:], [byte < 64 and bool(byte >> bit & 1) for byte in line.objects])
            self.assertEqual(found[:68], [False] * 68)
            seen.update({name} if any(found) else ())
        self.assertEqual(seen, set(MOVABLE))

    def test_the_numbers_are_the_bytes_of_the_record(self):
        numbers = {"position": 0, "age": 3, "pixel": 6, "shown": 7}  # their places among an object's bytes
        none = {"pixel": 8, "shown": 0}  # the numbers for which - stands
        drawn = set()
        for (tape, number, _), name in product(list(self.each_line()), MOVABLE):
            records = records_of(tape, number)
            for clock, row in enumerate(rows_of(clocks_of(records, name), name)):
                record_here = records[38 * clock : 38 * clock + 38]
                self.assertEqual((int(row["clock"]), int(row["slot"])), (record_here[0], record_here[2]))
                for head in row.keys() & numbers.keys():
                    number_shown = none[head] if row[head] == "-" else int(row[head].rstrip("^"))
                    self.assertEqual(number_shown, record_here[BEGINNINGS[name] + numbers[head]], (name, head, row))
                drawn.add((row.get("pixel"), row.get("shown")))
        self.assertEqual(drawn, {(None, None), ("-", "-"), *product("01234567", "1234")})

    def test_a_player_is_lit_where_its_pixel_is(self):
        for graphic, name in ((0xA5, "P0"), (0xFF, "P1")):
            for row in rows_of(clocks_of(records_of(assemble(MOVING), 1), name), name):
                is_lit = row["pixel"] != "-" and row["blank"] == "-" and graphic >> 7 - int(row["pixel"]) & 1
                self.assertEqual(row["lit"], "lit" if is_lit else "-", row)

    def test_blank_is_what_line_bytes_blanks(self):
        for tape, number, line in self.each_line():
            rows = rows_of(clocks_of(records_of(tape, number), "P0"), "P0")
            self.assertEqual([row["blank"] for row in rows[:68]], ["blank"] * 68)
            self.assertEqual([row["blank"] for row in rows[68:]], ["blank" if byte >= 64 else "-" for byte in line.objects])

    def test_the_counter_shows_the_card(self):
        positions = set()
        for (tape, number, _), name in product(list(self.each_line()), MOVABLE):
            for row in rows_of(clocks_of(records_of(tape, number), name), name):
                position = int(row["position"].rstrip("^"))
                positions.add(position)
                self.assertEqual("".join(LAMPS[lamp] for lamp in row["counter"]), card()[position // 4])
        self.assertEqual(positions, set(range(160)))

    def test_a_mark_where_the_position_rose_and_nowhere_else(self):
        for tape in [*TAPES, assemble(MOVING)]:
            for name in MOVABLE:
                before = 0
                for number in range(len(lines_of(answered("line_bytes", tape)))):
                    for row in rows_of(clocks_of(records_of(tape, number), name), name):
                        position = int(row["position"].rstrip("^"))
                        self.assertEqual(row["position"].endswith("^"), position == (before + 1) % 160, (number, row))
                        before = position

    def test_a_motion_value_from_its_write_on(self):
        tape = assemble(MOVING)
        for name, value, clock in (("P0", "+7", 0), ("P1", "-8", 1), ("M0", "-1", 2), ("M1", "+1", 3), ("BL", "+0", 4)):
            rows = rows_of(clocks_of(records_of(tape, 1), name), name)
            self.assertEqual([row["motion"] for row in rows], ["+0"] * clock + [value] * (228 - clock))
            rows = rows_of(clocks_of(records_of(tape, 2), name), name)
            self.assertEqual([row["motion"] for row in rows], [value] * 90 + ["+0"] * 138)

    def test_a_move_to_the_left_by_7(self):
        rows = rows_of(clocks_of(records_of(assemble(MOVING), 1), "P0"), "P0", 0, 75)
        self.assertEqual(len([row for row in rows if row["position"].endswith("^")]), 15)
        self.assertEqual([row["slot"] for row in rows[:9]], ["16"] * 9)
        self.assertEqual([row["live"] for row in rows[:10]], ["-"] * 9 + ["live"])
        self.assertEqual([row["late"] for row in rows[:10]], ["-"] * 9 + ["late"])


class Runs(unittest.TestCase):
    def test_a_line_that_is_not_run_has_no_records(self):
        tape = assemble(MOVING)
        self.assertEqual(len(records_of(tape, 4)), 228 * 38)
        for number in (5, 6, 65535):
            self.assertEqual(records_of(tape, number), b"")

    def test_the_lines_before_a_refused_one_have_records(self):
        tape = assemble(REFUSED)
        self.assertEqual([len(records_of(tape, number)) for number in range(4)], [228 * 38, 0, 0, 0])


class Strobed(unittest.TestCase):
    def test_the_first_strobe_of_the_tape(self):
        for name in MOVABLE:
            text = f"line\n 0 ENAM0 2\nline\n 5 HMOVE\n 9 RES{name}\n 20 RESP0\nline\n 0 RESM1\n"
            self.assertEqual(first_strobed(parsed(text)), name)

    def test_writes_without_rows(self):
        self.assertEqual(first_strobed([[], [(None, 3, 0x2A, 0), (None, 5, 0x13, 0)]]), "M1")

    def test_missile_0_without_a_strobe(self):
        for lines in ([], [[]], parsed("line\n 0 HMOVE\n 3 HMP0 $10\n 5 $40 $10\n")):
            self.assertEqual(first_strobed(lines), "M0")


if __name__ == "__main__":
    unittest.main()
