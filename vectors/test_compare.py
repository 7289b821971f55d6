"""Tests of the comparison with the emulator's scenes; needs target/bin/line_bytes and target/bin/listing.
Run: python3 vectors/test_compare.py"""

import re
import subprocess
import sys
import tempfile
import unittest
from pathlib import Path

sys.dont_write_bytecode = True

from scenes import COLOURS, FILES, FOLDER, PICTURES, PLAYERS_FIRST, PLAYFIELD_FIRST
from scenes import colour, colour_order, drawn, scene_in, scenes_in, shown_by
from columns import COLOUR_REGISTERS, READ, Column, columns_of, registers_at_clocks
from colour_rule import colour_shown, register_shown
from size_coverage import moved_seen
from size_rule import ONE_COPY, copies_in, is_resized, is_set, lit_by, lit_columns, pixels_shown, sizes_read, starts
from coverage import coverage
from classroom.lines import Line, lines_of
from classroom.registers import REGISTERS
from classroom.tape_forms import pack

PROJECT = Path(__file__).resolve().parent.parent
PROGRAMS = ("target/bin/line_bytes", "target/bin/listing")
ROWS = {name: (FOLDER / name).read_text("ascii").splitlines() for name in FILES}
COLOUR_FILES = [name for name, stored in FILES.items() if stored.kind == COLOURS]
EMPTY = {PICTURES: "." * 160, COLOURS: "00" * 160}
LATCHES = "cx 00 00 00 00 00 00 00 00"
LATER, EARLIER = (f"rewritten, one clock {when} would be seen" for when in ("later", "earlier"))
PLAYER_BITS = {"P0": 1, "P1": 2}
NUSIZ = (0x04, 0x05)


def row_of(*lines, shown=EMPTY[PICTURES], latches=LATCHES):
    """The row of a scene whose tape has these lines, each the writes in hexadecimal."""
    tape = "01" + "".join(f"{len(line) // 2:04X}{line}" for line in lines)
    return f"{tape} {shown} {latches}"


def scene_of(kind, *lines, **parts):
    """The scene of this kind whose tape has these lines; shown is empty where it is not among the parts."""
    return scene_in(kind, "scene 7", row_of(*lines, **{"shown": EMPTY[kind], **parts}))


def text_of(rows):
    """The text of a file with these rows."""
    return "".join(f"{row}\n" for row in rows)


def damaged(file, part, change):
    """The rows of a file's scenes, each with one of its three parts (0 tape, 1 columns, 2 latches) changed."""
    rows = []
    for number, row in enumerate(ROWS[file], start=1):
        parts = row.split(" ", 2)
        parts[part] = change(number, parts[part])
        rows.append(" ".join(parts))
    return rows


def with_bit_flipped(digits, place, bit):
    """Hexadecimal digits with one bit flipped of the byte that begins at a place."""
    return digits[:place] + f"{int(digits[place : place + 2], 16) ^ 1 << bit:02X}" + digits[place + 2 :]


def with_value_flipped(scene, register, bits, last=(5, 227)):
    """A scene's tape in hexadecimal, with bits flipped in the last value that a register gets up to a line and clock."""
    lines = [list(writes) for writes in scene.lines]
    address = REGISTERS[register].address
    places = [(line, at) for line, writes in enumerate(lines) for at, write in enumerate(writes) if write[1] == address]
    line, at = [(line, at) for line, at in places if (line, lines[line][at][0]) <= last][-1]
    clock, _, value = lines[line][at]
    lines[line][at] = (clock, address, value ^ bits)
    return pack(1, lines).hex().upper()


def with_odd_colours(scene):
    """A scene's tape in hexadecimal, with bit 0 flipped in every value that a colour register gets."""
    colours = [REGISTERS[name].address for name in COLOUR_REGISTERS]
    lines = [[(clock, address, value ^ (address in colours)) for clock, address, value in writes] for writes in scene.lines]
    return pack(1, lines).hex().upper()


def with_copies(scene, changed):
    """A scene's tape in hexadecimal, with the copies in every value of NUSIZ changed as this says."""

    def written(clock, address, value):
        copies = value & 7
        return clock, address, value - copies + changed.get(copies, copies) if address in NUSIZ else value

    return pack(1, [[written(*write) for write in writes] for writes in scene.lines]).hex().upper()


def with_last_line(scene, change):
    """A scene's tape in hexadecimal, with every write of the last line changed, or left out where change gives none."""
    last = [write for write in map(change, scene.lines[-1]) if write]
    return pack(1, [*scene.lines[:-1], last]).hex().upper()


class Letters(unittest.TestCase):
    def test_each_object_alone(self):
        for order in (PLAYERS_FIRST, PLAYFIELD_FIRST):
            self.assertEqual(drawn(bytes([1, 2, 4, 8, 16, 32, 0]), order), "PQPQBB.")

    def test_each_overlap(self):
        for byte in range(64):
            first = ["P"] * bool(byte & 5) + ["Q"] * bool(byte & 10)
            last = ["B"] * bool(byte & 48)
            self.assertEqual(colour(byte, PLAYERS_FIRST), [*first, *last, "."][0])
            self.assertEqual(colour(byte, PLAYFIELD_FIRST), [*last, *first, "."][0])

    def test_blanked(self):
        for order in (PLAYERS_FIRST, PLAYFIELD_FIRST):
            self.assertEqual(colour(64, order), ".")

    def test_order_by_bit_2_of_the_last_write(self):
        for value in range(256):
            scene = scene_of(PICTURES, "000A04", "000A00", "", "", "", f"000A{value:02X}")
            self.assertEqual(colour_order(scene), "BPQ" if value & 4 else "PQB")

    def test_shown_by_kind(self):
        scene = scene_of(PICTURES, "000A04", "", "", "", "", "")
        line = Line(bytes([33, 64] * 80), bytes([0xAE, 0x02] * 80))
        self.assertEqual(shown_by(PICTURES, scene, line), "B." * 80)
        self.assertEqual(shown_by(COLOURS, scene, line), "AE02" * 80)


class ColourRule(unittest.TestCase):
    held = {"CTRLPF": 0, "COLUP0": 0x11, "COLUP1": 0x22, "COLUPF": 0x33, "COLUBK": 0x44}

    def shown(self, number, byte, **changed):
        """The colour of a column."""
        return colour_shown(Column(number, byte, self.held, self.held), **changed)

    def test_every_overlap_and_every_control(self):
        for byte in range(64):
            p0, p1, m0, m1, ball, playfield = (byte >> bit & 1 for bit in range(6))
            for control in range(256):
                for number in (0, 79, 80, 159):
                    players = ["COLUP0"] * (p0 | m0) + ["COLUP1"] * (p1 | m1)
                    score = "COLUP0" if number <= 79 else "COLUP1"
                    is_score = control & 2 and not control & 4
                    fields = ["COLUPF"] * ball + [score if is_score else "COLUPF"] * playfield
                    order = fields + players if control & 4 else players + fields
                    self.assertEqual(register_shown(number, byte, control), [*order, "COLUBK"][0])

    def test_bit_0_is_read_as_0(self):
        for name, byte in zip(COLOUR_REGISTERS, (1, 2, 32, 0)):
            for value in range(256):
                self.assertEqual(self.shown(5, byte, **{name: value}), value // 2 * 2)

    def test_blanked(self):
        self.assertEqual(self.shown(0, 64), 0)

    def test_registers_at_their_clocks(self):
        clocks = registers_at_clocks([[(0, 6, 0x12), (9, 8, 0x56), (227, 9, 0x78)], [(3, 8, 0x9A), (80, 0x1B, 5), (81, 9, 1)]])
        self.assertEqual(len(clocks), 228)
        read = {name: clocks[2][name] for name in READ}
        self.assertEqual(read, {"CTRLPF": 0, "COLUP0": 0x12, "COLUP1": 0, "COLUPF": 0x56, "COLUBK": 0x78})
        self.assertEqual([clocks[clock]["COLUPF"] for clock in (0, 2, 3, 227)], [0x56, 0x56, 0x9A, 0x9A])
        self.assertEqual([clocks[clock]["COLUBK"] for clock in (80, 81, 227)], [0x78, 1, 1])

    def test_old_graphics(self):
        names = "GRP0", "old GRP0", "GRP1", "old GRP1"
        writes = [(0, 0x1B, 1), (1, 0x1C, 2), (2, 0x1B, 3), (3, 0x1B, 4), (4, 0x1C, 5), (5, 0x1D, 6), (6, 0x1C, 7)]
        held = [[clock[name] for name in names] for clock in registers_at_clocks([writes])]
        wanted = [[1, 0, 0, 0], [1, 1, 2, 0], [3, 1, 2, 2], [4, 1, 2, 2], [4, 4, 5, 2], [4, 4, 5, 2], [4, 4, 7, 2]]
        self.assertEqual(held[:8], [*wanted, wanted[-1]])
        self.assertEqual([registers_at_clocks([writes[:end], []])[0][names[1]] for end in (1, 2, 5)], [0, 1, 4])

    def test_columns(self):
        scene = scene_of(COLOURS, "", "", "", "", "", "440922450806")
        columns = columns_of(scene, bytes(range(160)))
        self.assertEqual([(column.number, column.byte) for column in columns], [(at, at) for at in range(160)])
        self.assertEqual([columns[at].held["COLUBK"] for at in (0, 1)], [0x22, 0x22])
        self.assertEqual([columns[at].before["COLUBK"] for at in (0, 1)], [0, 0x22])
        self.assertEqual([columns[at].held["COLUPF"] for at in (0, 1)], [0, 6])


class Scenes(unittest.TestCase):
    good = ("000A04", "", "", "", "", "")

    def assert_refused(self, message, kind, row):
        """Asserts that a row is no scene of this kind, by a message that begins like this."""
        with self.assertRaises(ValueError) as caught:
            scene_in(kind, "scene 7", row)
        self.assertEqual(str(caught.exception)[: len(message)], message)

    def test_parts(self):
        lines = [[(0, 0x0A, 4), (3, 0x1B, 0x55)], [], [], [], [], []]
        tape = bytes.fromhex("01 0006 000A04 031B55 0000 0000 0000 0000 0000")
        for kind, shown in ((PICTURES, "P" * 160), (COLOURS, "0E" * 160)):
            scene = scene_of(kind, "000A04031B55", "", "", "", "", "", shown=shown, latches="cx" + " C0" * 8)
            self.assertEqual(scene, ("scene 7", tape, lines, shown, "cx" + " C0" * 8))
            self.assertEqual(scene.writes("GRP0"), [(3, 0x55)])

    def test_so_many(self):
        self.assertEqual([stored.count for stored in FILES.values()], [150, 150, 75, 150, 75, 75])
        for file, rows in ROWS.items():
            scenes = scenes_in(file, text_of(rows))
            self.assertEqual([scene.name for scene in scenes], [f"scene {n} of {file}" for n in range(1, len(rows) + 1)])
            for wrong in ([], rows[:1], rows[:-1], [*rows, rows[0]], [*rows, ""], [*rows[:-1], ""]):
                self.assertRaises(ValueError, scenes_in, file, text_of(wrong))

    def test_a_file_of_the_other_kind(self):
        self.assertRaises(ValueError, scenes_in, "colours.txt", text_of(ROWS["emulator_scenes.txt"]))
        self.assertRaises(ValueError, scenes_in, "emulator_scenes.txt", text_of(ROWS["colours.txt"]))

    def test_six_lines(self):
        for kind, shown in EMPTY.items():
            for count in (5, 7):
                row = row_of("000A04", *[""] * (count - 1), shown=shown)
                self.assert_refused(f"scene 7 has {count} lines", kind, row)
            self.assert_refused("scene 7 has a damaged tape", kind, row_of(*self.good[:5], "0000", shown=shown))
            self.assert_refused("scene 7 has a damaged tape", kind, "00" + row_of(*self.good, shown=shown)[2:])

    def test_columns(self):
        whole = EMPTY[PICTURES]
        for shown in ("", whole[1:], whole + ".", "M" + whole[1:], " " + whole[1:], EMPTY[COLOURS]):
            self.assert_refused("scene 7 is not well-formed", PICTURES, row_of(*self.good, shown=shown))
        whole = EMPTY[COLOURS]
        for shown in ("", whole[1:], whole[2:], whole + "0", whole + "00", "G0" + whole[2:], "a0" + whole[2:], EMPTY[PICTURES]):
            self.assert_refused("scene 7 is not well-formed", COLOURS, row_of(*self.good, shown=shown))

    def test_bit_0_of_a_colour(self):
        for value in range(256):
            for column in (0, value % 160, 159):
                shown = EMPTY[COLOURS][: 2 * column] + f"{value:02X}" + EMPTY[COLOURS][2 * column + 2 :]
                if value % 2 == 0:
                    self.assertEqual(scene_of(COLOURS, *self.good, shown=shown).shown, shown)
                else:
                    self.assert_refused("scene 7 is not well-formed", COLOURS, row_of(*self.good, shown=shown))

    def test_latches_and_tape(self):
        for kind, shown in EMPTY.items():
            for latches in ("", "cx", LATCHES[:-3], LATCHES + " 00", LATCHES[:-1], LATCHES[:-2] + "0G", LATCHES[3:]):
                self.assert_refused("scene 7 is not well-formed", kind, row_of(*self.good, shown=shown, latches=latches))
            good = row_of(*self.good, shown=shown)
            for row in ("", good[1:], good[32:], good + " ", " " + good, good.lower()):
                self.assert_refused("scene 7 is not well-formed", kind, row)

    def test_colour_order_is_known(self):
        for lines in ([""] * 6, ["000A04", "", "", "", "", "440A04"]):
            self.assert_refused("scene 7 leaves its colour order open", PICTURES, row_of(*lines))
            self.assertEqual(scene_of(COLOURS, *lines).name, "scene 7")
        self.assertEqual(scene_of(PICTURES, "000A04", "", "", "", "", "430A04").name, "scene 7")


class Coverage(unittest.TestCase):
    def test_counts(self):
        for kind in EMPTY:
            scenes = [
                scene_of(kind, "000A04031013062AFF", "002BF0", "", "", "", "", latches="cx 80" + " 00" * 7),
                scene_of(kind, "000A31103A00442A00", "002050", "", "", "", ""),
            ]
            rows = coverage(kind, scenes, [bytes([6, 64] * 80), bytes([1, 64] * 80)])
            for row in (
                "last line lights: P0 1, P1 1, M0 1, M1 0, BL 0, PF 0",
                "last line has: overlaps 1, blanked columns 2",
                "HMOVE at clock: 0-15 1, 16-67 0, 68-227 1",
                "position strobe at clock: 0-15 1, 16-67 0, 68-227 0",
                "half byte of P0: 0 0, 1 0, 2 0, 3 0, 4 0, 5 1, " + ", ".join(f"{value} 0" for value in range(6, 16)),
                "width code of BL: 0 1, 1 0, 2 0, 3 1",
                "CTRLPF bit 0, reflect: 0 1, 1 1",
            ):
                self.assertIn(row, rows)
            self.assertTrue(rows[3].startswith("last line has together: M0-P1 1, M0-P0 0,"))
            self.assertTrue(rows[4].startswith("emulator latched: any 1, M0-P1 1, M0-P0 0,"))
            self.assertTrue(rows[-1].startswith("registers not written: NUSIZ0, NUSIZ1, COLUP0, COLUP1, COLUPF,"))
            self.assertNotIn("HMCLR", rows[-1])
            self.assertEqual("CTRLPF bit 2: clear 1, set 1, clear and seen 0, set and seen 0" in rows, kind == PICTURES)

    def test_lit_beside_blanked_columns(self):
        for kind in EMPTY:
            scenes = [scene_of(kind, "000A00", "", "", "", "", "")] * 4
            lines = [bytes([64] * 8 + [byte] * 152) for byte in (1, 24)] + [bytes([38] * 160), bytes([64] * 160)]
            rows = coverage(kind, scenes, lines)
            self.assertIn("last line lights beside blanked columns: P0 1, P1 0, M0 0, M1 1, BL 1, PF 0", rows)

    def test_clocks_of_the_last_line(self):
        pairs = ("0F2A00", "002C00"), ("002C00", "0E2A00102C00"), ("", "0F2C00102A00"), ("", "442C00"), ("", "E32A00")
        scenes = [scene_of(COLOURS, "000A00", "", "", "", *pair) for pair in pairs]
        for kind in EMPTY:
            rows = coverage(kind, scenes, [bytes(160)] * 5)
            self.assertIn("HMOVE at clock: 0-15 2, 16-67 1, 68-227 1", rows)
            self.assertIn("HMOVE at clock of the last line: 0-15 1, 16-67 1, 68-227 1", rows)
            self.assertIn("CXCLR at clock of the last line: 0-15 2, 16-67 1, 68-227 1", rows)

    def test_seen(self):
        scenes = [scene_of(PICTURES, f"000A0{value}", "", "", "", "", "") for value in (0, 0, 0, 4, 4)]
        lines = [bytes([byte] * 160) for byte in (33, 18, 32, 18, 10)]
        self.assertIn("CTRLPF bit 2: clear 3, set 2, clear and seen 2, set and seen 1", coverage(PICTURES, scenes, lines))


class RowsOnColumns(unittest.TestCase):
    """What the tests of rows on the columns of last lines share."""

    colours = "000620030740060860090980"  # COLUP0, COLUP1, COLUPF and COLUBK unlike each other

    def rows(self, *scenes):
        """The rows on colour for scenes of CTRLPF's value, object bytes by column, all others 0, and more writes in the
        first and in the last line, as a dictionary by title."""
        made, lines = [], []
        for control, bytes_at, *writes in scenes:
            first, last = [*writes, "", ""][:2]
            made.append(scene_of(COLOURS, f"{self.colours}0C0A{control:02X}{first}", "", "", "", "", last))
            lines.append(bytes(bytes_at.get(column, 0) for column in range(160)))
        return dict(row.split(": ") for row in coverage(COLOURS, made, lines))

    def found(self, title, *scene):
        """The names that a row counts for a scene."""
        return self.counted(self.rows(scene)[title])

    def counted(self, counts):
        """The names that are counted in the counts of a row for one scene."""
        pairs = [count.rsplit(" ", 1) for count in counts.split(", ")]
        self.assertLessEqual({number for _, number in pairs}, {"0", "1"})
        return [name for name, number in pairs if number == "1"]


class ColourCoverage(RowsOnColumns):
    def test_blanked_columns(self):
        late = dict.fromkeys(range(8), 64)
        for bytes_at, first, names in (
            ({}, "0F0DF0", []),
            (late, "", ["in columns 0-7", "seen"]),
            ({7: 64}, "0F0DD0", ["in columns 0-7", "seen"]),
            ({7: 64}, "0F0D20", ["in columns 0-7", "over the playfield", "seen"]),
            ({3: 64}, "0F0DE0", ["in columns 0-7", "seen"]),
            ({3: 64}, "0F0D10", ["in columns 0-7", "over the playfield", "seen"]),
            ({8: 64}, "0F0DF0", ["in others", "seen"]),
            ({0: 64, 159: 64}, "", ["in columns 0-7", "in others", "seen"]),
            *((late, f"0F{address:02X}01", ["in columns 0-7"]) for address in (6, 7, 8, 9)),
        ):
            self.assertEqual(self.found("blanked columns", 0, bytes_at, first), names, (bytes_at, first))

    def test_counted_over_scenes(self):
        title = "CTRLPF bits 2 and 1 in the last line"
        rows = self.rows((0, {}), (2, {}), (0x13, {}), (4, {}), (0xFE, {}), (6, {}), (0xF9, {}))
        self.assertEqual(rows[title], "neither 2, bit 1 alone 2, bit 2 alone 1, both 2")
        self.assertEqual(self.found(title, 0, {}, "", "500A04C80A06"), ["neither", "bit 2 alone", "both"])
        self.assertEqual(self.found(title, 0, {}, "", "440A04"), ["bit 2 alone"])

    def test_bits_seen(self):
        for control, bytes_at, names in (
            (0, {}, []),
            (0, {5: 3}, []),
            (0, {5: 33}, ["bit 2 clear"]),
            (4, {5: 18}, ["bit 2 set"]),
            (0, {5: 32}, ["bit 1 clear"]),
            (0, {5: 48}, []),
            (2, {5: 16}, []),
            (2, {5: 32}, ["bit 2 clear", "bit 1 set"]),
            (4, {5: 32}, []),
            (6, {5: 32}, ["bit 2 set", "bit 1 under bit 2"]),
            (6, {5: 48}, []),
            (6, {5: 33}, ["bit 2 set", "bit 1 under bit 2"]),
            (6, {95: 34}, ["bit 2 set", "bit 1 under bit 2"]),
            (6, {5: 64, 6: 1}, []),
        ):
            self.assertEqual(self.found("CTRLPF bits seen", control, bytes_at), names, (control, bytes_at))

    def test_bits_not_seen_in_like_colours(self):
        for register, byte, control in ((6, 33, 0), (7, 34, 0), (6, 33, 4), (6, 32, 2), (6, 32, 6)):
            like = f"0F{register:02X}61"
            self.assertNotEqual(self.found("CTRLPF bits seen", control, {5: byte}), [])
            self.assertEqual(self.found("CTRLPF bits seen", control, {5: byte}, like), [])

    def test_score(self):
        right, left, ball = "P0 or M0 over PF on the right", "P1 or M1 over PF on the left", "BL over PF"
        for control, bytes_at, names in (
            (2, {5: 32}, ["COLUP0 on the left"]),
            (2, {79: 32}, ["COLUP0 on the left", "in column 79"]),
            (2, {80: 32}, ["in column 80", "COLUP1 on the right"]),
            (2, {159: 32}, ["COLUP1 on the right"]),
            (2, {5: 48, 95: 48}, [ball]),
            (2, {5: 16, 95: 16}, []),
            (2, {5: 33}, []),
            (2, {95: 33}, [right]),
            (2, {95: 52}, [right]),
            (2, {5: 34}, [left]),
            (2, {5: 40}, [left]),
            (2, {5: 35}, []),
            (2, {95: 34}, []),
            (0, {5: 32, 79: 32, 80: 32, 95: 33, 6: 34, 7: 48}, []),
            (6, {5: 32, 79: 32, 80: 32, 95: 33, 6: 34, 7: 48}, []),
            (2, {5: 64}, []),
        ):
            self.assertEqual(self.found("score seen", control, bytes_at), names, (control, bytes_at))

    def test_score_not_seen_in_like_colours(self):
        for bytes_at, like in (({5: 32}, "0F0660"), ({5: 32}, "0F0640"), ({5: 48}, "0F0660"), ({5: 34}, "0F0640")):
            self.assertNotEqual(self.found("score seen", 2, bytes_at), [])
            self.assertEqual(self.found("score seen", 2, bytes_at, like), [])

    def test_order(self):
        p, q, b = "P0 or M0", "P1 or M1", "BL or PF"
        for control, byte, names in (
            (0, 3, [f"{p} over {q}"]),
            (0, 12, [f"{p} over {q}"]),
            (0, 33, [f"{p} over {b}"]),
            (0, 24, [f"{q} over {b}"]),
            (0, 35, [f"{p} over {q}", f"{p} over {b}"]),
            (4, 33, [f"{b} over {p}"]),
            (4, 24, [f"{b} over {q}"]),
            (4, 39, [f"{b} over {p}", f"{b} over {q}"]),
            (4, 3, [f"{p} over {q}"]),
            (2, 33, []),
            (2, 17, [f"{p} over {b}"]),
            (0, 5, []),
            (0, 48, []),
            (0, 32, []),
            (0, 64, []),
            (0, 64 + 33, []),
        ):
            self.assertEqual(self.found("order seen", control, {5: byte}), names, (control, byte))
        self.assertEqual(self.found("order seen", 0, {5: 3}, "0F0621"), [f"{p} over {q}"])
        self.assertEqual(self.found("order seen", 0, {5: 3}, "0F0641"), [])

    def test_registers_and_objects_seen(self):
        blanked = dict.fromkeys(range(160), 64)
        for byte, register, name in (
            (1, "COLUP0", "P0"),
            (2, "COLUP1", "P1"),
            (4, "COLUP0", "M0"),
            (8, "COLUP1", "M1"),
            (16, "COLUPF", "BL"),
            (32, "COLUPF", "PF"),
            (0, "COLUBK", "nothing"),
        ):
            line = {**blanked, 5: byte}
            self.assertEqual(self.found("register seen", 0, line), [register])
            self.assertEqual(self.found("colour seen of", 0, line), [name])
            for other in COLOUR_REGISTERS:
                like = {"COLUP0": 0x20, "COLUP1": 0x40, "COLUPF": 0x60, "COLUBK": 0x80}[register]
                write = f"0F{REGISTERS[other].address:02X}{like + 1:02X}"
                self.assertEqual(self.found("register seen", 0, line, write), [register] if other == register else [])
                self.assertEqual(self.found("colour seen of", 0, line, write), [name] if other == register else [])
        self.assertEqual(self.found("register seen", 0, {**blanked, 5: 33}), ["COLUP0"])
        self.assertEqual(self.found("colour seen of", 0, {**blanked, 5: 33}), [])
        self.assertEqual(self.found("register seen", 0, blanked), [])
        self.assertEqual(self.found("colour seen of", 0, blanked), [])

    def test_odd_byte_shown(self):
        title = "bit 0 set in a colour shown"
        for register, byte in zip(COLOUR_REGISTERS, (1, 2, 32, 0)):
            write = f"0F{REGISTERS[register].address:02X}"
            line = {**dict.fromkeys(range(160), 64), 5: byte}
            self.assertEqual(self.found(title, 0, line, write + "21"), [register])
            self.assertEqual(self.found(title, 0, line, write + "20"), [])
            self.assertEqual(self.found(title, 0, {**line, 5: 64}, write + "21"), [])
            self.assertEqual(self.found(title, 0, {**line, 5: 2 if byte == 1 else 1}, write + "21"), [])

    def test_rewritten(self):
        for register, byte in (("CTRLPF", 33), ("COLUP0", 1), ("COLUP1", 2), ("COLUPF", 32), ("COLUBK", 0)):
            others = dict.fromkeys(range(160), 1 if byte == 2 else 2)
            for clock, column in ((68, 0), (100, 32), (227, 159)):
                last = f"{clock:02X}{REGISTERS[register].address:02X}04"
                for line, later, earlier in (
                    (others, [], []),
                    ({**others, column: byte}, [register], []),
                    ({**others, column - 1: byte}, [], [register] if column > 0 else []),
                    ({**others, column + 1: byte}, [], []),
                ):
                    self.assertEqual(self.found("rewritten in a column", 0, line, "", last), [register])
                    self.assertEqual(self.found(LATER, 0, line, "", last), later)
                    self.assertEqual(self.found(EARLIER, 0, line, "", last), earlier)

    def test_not_rewritten(self):
        for last in ("", "430602", "440620", "441BFF"):
            self.assertEqual(self.found("rewritten in a column", 0, {}, "", last), [])
        self.assertEqual(self.found("rewritten in a column", 0, {}, "", "440621"), ["COLUP0"])
        for title in (LATER, EARLIER):
            self.assertEqual(self.found(title, 0, dict.fromkeys(range(160), 1), "", "C80621"), [])
            self.assertEqual(self.found(title, 0, dict.fromkeys(range(160), 1), "", "C80622"), ["COLUP0"])


class SizeRule(unittest.TestCase):
    def test_pixels_at_rest(self):
        for size, first in ((1, 5), (2, 6), (4, 6)):
            for start in range(160):
                pixels = {(start + first + at) % 160: at // size for at in range(8 * size)}
                self.assertEqual(pixels_shown(start, [size] * 161), pixels)

    def test_pixels_set(self):
        for graphic in range(256):
            held = dict.fromkeys(("REFP0", "REFP1", "VDELP0", "VDELP1", "GRP0", "GRP1", "old GRP0", "old GRP1"), 0)
            for player in "01":
                for delayed, name in ((0xFE, "GRP"), (0x01, "old GRP")):
                    for reflected, order in ((0xF7, -1), (0x08, 1)):
                        changed = {f"VDELP{player}": delayed, f"REFP{player}": reflected, f"{name}{player}": graphic}
                        found = [is_set({**held, **changed}, f"P{player}", pixel) for pixel in range(8)]
                        self.assertEqual(found, [bool(graphic >> bit & 1) for bit in range(8)][::order])

    def test_read_before_the_first_column(self):
        columns = columns_of(scene_of(COLOURS, "000405", "", "", "", "", "440407"), bytes(160))
        self.assertEqual(sizes_read(columns, "P0"), [4] * 160 + [2])
        self.assertEqual(sizes_read(columns, "P1"), [1] * 161)


class SizeCoverage(RowsOnColumns):
    # A size rewritten so many columns after a copy's first: old, new, columns, the columns that each pixel then has,
    # and whether the write a clock later, and earlier, gives others.
    changes = (
        (1, 2, 0, [2] * 8, False, False),
        (1, 2, 2, [1] + [2] * 7, True, True),
        (1, 4, 7, [1] * 6 + [4] * 2, True, True),
        (2, 1, 1, [1] * 8, True, False),
        (2, 1, 2, [2] + [1] * 7, False, True),
        (2, 4, 2, [4] * 8, True, False),
        (2, 4, 3, [2] + [4] * 7, False, True),
        (4, 1, 2, [2] + [1] * 7, True, True),
        (4, 1, 31, [4] * 7 + [3], True, True),
        (4, 2, 5, [4] + [2] * 7, False, False),
        (4, 2, 7, [4, 3] + [2] * 6, True, True),
    )
    copies = {1: 0, 2: 5, 4: 7}
    words = {1: "single", 2: "double", 4: "quadruple"}
    titles = ("resized, one clock later would be seen", "resized, one clock earlier would be seen")

    def line(self, player, first, widths, graphic=0b11010011):
        """The object bytes by column of a copy from its first column on with pixels so wide."""
        pixels = [pixel for pixel, width in enumerate(widths) for _ in range(width)]
        bit = PLAYER_BITS[player]
        return {first + at: bit for at, pixel in enumerate(pixels) if graphic >> 7 - pixel & 1 and first + at < 160}

    def writes(self, player, old, new, column, how="0F{grp:02X}D3"):
        """The writes of the first line and of the last: the graphic, a size, and the size rewritten in a column."""
        number = int(player[1])
        first = how.format(grp=0x1B + number, other=0x1C - number, refp=0x0B + number, vdelp=0x25 + number)
        nusiz = f"{4 + number:02X}"
        return f"{first}40{nusiz}{self.copies[old]:02X}", f"{68 + column:02X}{nusiz}3{self.copies[new]}"

    def test_lit_sizes(self):
        for player, bit in PLAYER_BITS.items():
            number = int(player[1])
            for copies in range(8):
                word = {5: "double", 7: "quadruple"}.get(copies, "single")
                nusiz = f"10{4 + number:02X}{0xC8 + copies:02X}"
                reflected, delayed = f"11{0x0B + number:02X}08", f"12{0x25 + number:02X}01"
                for more, how in (("", []), (reflected, ["reflected"]), (delayed, ["delayed"])):
                    names = [word, *(f"{word} and {one}" for one in how)]
                    self.assertEqual(self.found(f"lit {player} is", 0, {9: bit}, nusiz + more), names)
                    self.assertEqual(self.found(f"lit {player} is", 0, {9: 62 - bit + 1, 10: 64}, nusiz + more), [])
            last = f"50{4 + number:02X}05"
            self.assertEqual(self.found(f"lit {player} is", 0, {11: bit, 12: bit}, "", last), ["single", "double"])

    def test_lit_runs(self):
        for player, bit in PLAYER_BITS.items():
            nusiz = f"{4 + int(player[1]):02X}"
            for size, copies in ((2, "05"), (4, "07")):
                title = f"columns of a lit run of {self.words[size]} {player}"
                for runs, counted in (
                    ([(1, size)], [size]),
                    ([(9, 3 * size)], [3 * size]),
                    ([(9, 8 * size), (100, size)], [size, 8 * size]),
                    ([(9, size + 1), (100, 9 * size)], []),
                    ([(0, size)], []),
                    ([(160 - size, size)], []),
                    ([(159 - size, size)], [size]),
                ):
                    bytes_at = {first + at: bit for first, length in runs for at in range(length)}
                    self.assertEqual(self.found(title, 0, bytes_at, f"10{nusiz}{copies}"), list(map(str, counted)))
                bytes_at = {20 + at: bit for at in range(size)}
                self.assertEqual(self.found(title, 0, bytes_at, f"10{nusiz}00"), [])
                self.assertEqual(self.found(title, 0, {**bytes_at, 19: 64}, f"10{nusiz}{copies}"), [])
                self.assertEqual(self.found(title, 0, bytes_at, f"10{nusiz}{copies}", f"90{nusiz}00"), [])
                other = {at: 3 - bit for at in bytes_at}
                self.assertEqual(self.found(title, 0, other, f"10{nusiz}{copies}"), [])

    def resized(self, player, bytes_at, first, last):
        """What is counted of a player's resizing: changes, places, and whether a write later, and earlier, is seen."""
        rows = self.rows((0, bytes_at, first, last))
        changes, places = (self.counted(rows[f"{player} resized {how}"]) for how in ("while drawn", "in its pixel"))
        return changes, places, *(player in self.counted(rows[title]) for title in self.titles)

    def test_each_change(self):
        ways = (
            "0F{grp:02X}D3",
            "0F{grp:02X}CB10{refp:02X}08",
            "0F{grp:02X}D310{other:02X}FF11{grp:02X}2412{vdelp:02X}01",
        )
        for player in PLAYER_BITS:
            for old, new, columns, widths, later, earlier in self.changes:
                change = [f"{self.words[old]} to {self.words[new]}"]
                place = [{0: "first", 7: "last"}.get(columns // old, "another")]
                for first in (10, 90):
                    bytes_at = self.line(player, first, widths)
                    for how in ways:
                        writes = self.writes(player, old, new, first + columns, how)
                        found = self.resized(player, bytes_at, *writes)
                        self.assertEqual(found, (change, place, later, earlier), (player, old, new, columns, how))
                    other = "P1" if player == "P0" else "P0"
                    self.assertEqual(self.resized(other, bytes_at, *writes), ([], [], False, False))

    def test_not_seen_in_like_colours(self):
        for player in PLAYER_BITS:
            for old, new, columns, widths, _, _ in self.changes:
                first, last = self.writes(player, old, new, 20 + columns)
                like = f"{first}410{6 + int(player[1])}81"
                changes, places, *seen = self.resized(player, self.line(player, 20, widths), like, last)
                self.assertEqual((len(changes), len(places), seen), (1, 1, [False, False]))

    def test_across_the_edge(self):
        for player, bit in PLAYER_BITS.items():
            graphic, write = 0b11010111, "0F{grp:02X}D7"
            single, cut = (self.line(player, *copy, graphic) for copy in ((149, [1] * 8), (150, [2] + [1] * 7)))
            change = ["double to single"]
            for rest in (dict.fromkeys(range(6), bit), dict.fromkeys(range(8), 64)):
                found = self.resized(player, {**rest, **cut}, *self.writes(player, 2, 1, 152, write))
                self.assertEqual(found, (change, ["another"], False, True))
            for column, end, place in ((0, 3, "another"), (1, 3, "another"), (2, 4, "another"), (4, 5, "last")):
                line = {**dict.fromkeys(range(end), bit), **single}
                found = self.resized(player, line, *self.writes(player, 2, 1, column, write))
                self.assertEqual(found[:2], (change, [place]))

    def test_more_copies_before_column_0(self):
        for player, bit in PLAYER_BITS.items():
            line = dict.fromkeys((1, 2, 3, 4, 5, 6, 156, 157, 158, 159), bit)
            first, last = self.writes(player, 1, 2, 0, "0F{grp:02X}D7")
            self.assertEqual(self.resized(player, line, first, last)[0], ["single to double"])
            self.assertEqual(self.resized(player, line, first[:-1] + "3", last)[0], [])

    def test_place_not_told(self):
        for player in PLAYER_BITS:
            bytes_at = self.line(player, 50, [2] + [1] * 7, 0b00000001)
            writes = self.writes(player, 4, 1, 52, "0F{grp:02X}01")
            self.assertEqual(self.resized(player, bytes_at, *writes), (["quadruple to single"], [], False, False))

    def test_not_resized_while_drawn(self):
        for player, bit in PLAYER_BITS.items():
            none = ([], [], False, False)
            for old, new, column in ((1, 2, 8), (1, 4, 9), (2, 1, 16), (2, 4, 17), (4, 1, 32), (4, 2, 39), (2, 1, -1)):
                line = self.line(player, 50, [old if column > 0 else new] * 8)
                self.assertEqual(self.resized(player, line, *self.writes(player, old, new, 50 + column)), none)
            first, last = self.writes(player, 2, 1, 52)
            line = self.line(player, 50, [2] + [1] * 7)
            self.assertNotEqual(self.resized(player, line, first, last), none)
            for wrong in ({}, {**line, 54: 0}, {**line, 140: bit}):
                self.assertEqual(self.resized(player, wrong, first, last), none)
            self.assertEqual(self.resized(player, line, first, last[:-1] + "1"), none)
            self.assertEqual(self.resized(player, line, first, last[:-1] + "5"), none)


class Compare(unittest.TestCase):
    @classmethod
    def setUpClass(cls):
        missing = [program for program in PROGRAMS if not (PROJECT / program).exists()]
        if missing:
            raise AssertionError(f"not built: {' '.join(missing)}. Build with 'rt check listing line_bytes'.")

    def compare(self, file, rows, programs=PROGRAMS):
        """What the comparison of these scenes in place of a file's gives: status, rows of the output, errors."""
        with tempfile.TemporaryDirectory() as folder:
            scenes = Path(folder) / file
            scenes.write_text(text_of(rows), "ascii")
            return self.run_compare("--scenes", scenes, *programs)

    def run_compare(self, *arguments, folder=PROJECT):
        """What the comparison gives with these arguments: status, rows of the output, errors."""
        command = [sys.executable, PROJECT / "vectors/compare", *arguments]
        done = subprocess.run(command, capture_output=True, text=True, cwd=folder)
        return done.returncode, done.stdout.splitlines(), done.stderr

    def assert_differs(self, agreeing, file, rows, **options):
        """The output of a comparison in which so many scenes agree, and not all."""
        status, output, errors = self.compare(file, rows, **options)
        self.assertEqual((status, errors), (1, ""))
        self.assertEqual(output[-1], f"{agreeing} of {len(ROWS[file])} scenes agree with the emulator")
        return output

    def assert_fails(self, message, file, rows, **options):
        """Asserts that a comparison fails before its end, by a message that has this in it."""
        status, output, errors = self.compare(file, rows, **options)
        self.assertEqual((status, output), (1, []))
        self.assertIn(message, errors)
        self.assertEqual(errors.count("\n"), 1)

    def last_line(self, scene):
        """The last line that the program runs for a scene."""
        done = subprocess.run([PROJECT / PROGRAMS[0]], input=scene.tape, stdout=subprocess.PIPE, check=True)
        return lines_of(done.stdout)[-1]

    def test_all_agree(self):
        with tempfile.TemporaryDirectory() as folder:
            programs = (str(PROJECT / program) for program in PROGRAMS)
            status, output, errors = self.run_compare(*programs, folder=folder)
        self.assertEqual((status, errors), (0, ""))
        self.assertEqual(output[-1], "675 of 675 scenes agree with the emulator")
        agree = "150 of 150", "150 of 150", "75 of 75", "150 of 150", "75 of 75", "75 of 75"
        heads = [f"{file}: {count} scenes agree with the emulator; they cover:" for file, count in zip(FILES, agree)]
        self.assertEqual([row for row in output if row in heads], heads)

    def test_each_file_by_itself(self):
        for file, rows in ROWS.items():
            status, output, errors = self.compare(file, rows)
            self.assertEqual((status, errors), (0, ""))
            self.assertEqual(output[-1], f"{len(rows)} of {len(rows)} scenes agree with the emulator")
            self.assertEqual([row for row in output if row.startswith(tuple(FILES))], [output[0]])

    def test_a_changed_column_in_every_picture(self):
        def changed(number, picture):
            column = number + 9
            return picture[:column] + ("." if picture[column] != "." else "P") + picture[column + 1 :]

        file = "emulator_scenes.txt"
        output = self.assert_differs(0, file, damaged(file, 1, changed))
        for number, row in enumerate(ROWS[file], start=1):
            at = output.index(f"scene {number} of {file}: the pictures differ, first in column {number + 9}")
            self.assertEqual(output[at + 2], "  program  " + row.split(" ")[1])
            self.assertEqual(output[at + 3], " " * (11 + number + 9) + "^")

    def test_a_changed_column_in_one_picture(self):
        def changed(number, picture):
            return "Q" + picture[1:] if number == 77 else picture

        file = "emulator_scenes.txt"
        self.assertNotEqual(ROWS[file][76].split(" ")[1][0], "Q")
        self.assert_differs(149, file, damaged(file, 1, changed))

    def test_a_changed_colour_byte_in_every_scene(self):
        def changed(number, colours):
            return with_bit_flipped(colours, 2 * (number * 3 % 160), 1 + number % 7)

        for file in COLOUR_FILES:
            rows = damaged(file, 1, changed)
            output = self.assert_differs(0, file, rows)
            for number, (row, wrong) in enumerate(zip(ROWS[file], rows), start=1):
                column = number * 3 % 160
                at = output.index(f"scene {number} of {file}: the colours differ, first in column {column}")
                self.assertEqual(output[at + 1], "  emulator " + wrong.split(" ")[1])
                self.assertEqual(output[at + 2], "  program  " + row.split(" ")[1])
                self.assertEqual(output[at + 3], " " * (11 + 2 * column) + "^^")

    def test_a_changed_colour_byte_in_one_scene(self):
        def changed(number, colours):
            return with_bit_flipped(colours, 318, 7) if number == 44 else colours

        for file in COLOUR_FILES:
            output = self.assert_differs(len(ROWS[file]) - 1, file, damaged(file, 1, changed))
            self.assertEqual(output[0], f"scene 44 of {file}: the colours differ, first in column 159")
            self.assertEqual(sum("differ" in row for row in output), 1)

    def test_a_changed_latch_bit_in_every_scene(self):
        def changed(number, latches):
            return with_bit_flipped(latches, 3 + 3 * (number % 8), number // 8 % 8)

        for file, rows in ROWS.items():
            output = self.assert_differs(0, file, damaged(file, 2, changed))
            for number, row in enumerate(rows, start=1):
                at = output.index(f"scene {number} of {file}: the latches differ")
                self.assertEqual(output[at + 2], "  program  " + row.split(" ", 2)[2])

    def differing(self, output, file, what):
        """The numbers of the scenes of a file of which an output says that this differs."""
        found = (re.match(rf"scene (\d+) of {file}: the {what} differ", row) for row in output)
        return {int(match[1]) for match in found if match}

    def tapes_changed(self, file, change):
        """The rows of a file's scenes, each with the tape that change gives for it."""
        scenes = scenes_in(file, text_of(ROWS[file]))
        return damaged(file, 0, lambda number, _: change(scenes[number - 1]))

    def test_a_changed_playfield_in_every_tape(self):
        for file, rows in ROWS.items():
            wrong = self.tapes_changed(file, lambda scene: with_value_flipped(scene, "PF1", 0x01))
            output = self.assert_differs(0, file, wrong)
            same = set(range(1, len(rows) + 1)) - self.differing(output, file, FILES[file].kind.name)
            # There COLUPF and COLUBK have one colour, and only the latches tell.
            self.assertEqual(same, {68} if file == "comb.txt" else set())

    def test_a_changed_background_in_every_tape(self):
        def changed(scene):
            columns = columns_of(scene, self.last_line(scene).objects)
            shown = [register_shown(column.number, column.byte, column.held["CTRLPF"]) for column in columns]
            return with_value_flipped(scene, "COLUBK", 0x80, (5, 68 + shown.index("COLUBK")))

        for file in COLOUR_FILES:
            output = self.assert_differs(0, file, self.tapes_changed(file, changed))
            self.assertEqual(sum("the colours differ" in row for row in output), len(ROWS[file]))
            self.assertFalse(any("the latches differ" in row for row in output))

    def test_other_sizes_in_every_tape(self):
        file = "sizes.txt"
        self.assert_differs(0, file, self.tapes_changed(file, lambda scene: with_copies(scene, {5: 7, 7: 5})))
        output = self.assert_differs(2, file, self.tapes_changed(file, lambda scene: with_copies(scene, {5: 0, 7: 0})))
        # Two have their only stretched player, as the single one, under the playfield.
        same = set(range(1, 151)) - self.differing(output, file, "colours")
        self.assertEqual(same, {95, 131})

    def test_a_resizing_moved_by_a_clock(self):
        file = "resize.txt"
        scenes = scenes_in(file, text_of(ROWS[file]))
        for clocks, unlike in ((1, 38), (-1, 48)):
            def moved(write):
                clock, address, value = write
                return (clock + clocks if address in NUSIZ else clock, address, value)

            wrong = self.tapes_changed(file, lambda scene: with_last_line(scene, moved))
            output = self.assert_differs(75 - unlike, file, wrong)
            lines = (columns_of(scene, self.last_line(scene).objects) for scene in scenes)
            seen = {number for number, columns in enumerate(lines, start=1) if moved_seen(clocks > 0, columns)}
            self.assertGreater(len(seen), unlike // 2)
            self.assertLessEqual(seen, self.differing(output, file, "colours"))

    def test_the_last_line_without_its_strobes(self):
        file = "comb.txt"
        for address, agreeing, what, unlike in ((0x2A, 0, "colours", 75), (0x2C, 40, "latches", 35)):
            def kept(write):
                return write if write[1] != address else None

            wrong = self.tapes_changed(file, lambda scene: with_last_line(scene, kept))
            output = self.assert_differs(agreeing, file, wrong)
            self.assertEqual(len(self.differing(output, file, what)), unlike)

    def test_bit_0_of_a_colour_changes_nothing(self):
        for file in COLOUR_FILES:
            rows = self.tapes_changed(file, with_odd_colours)
            self.assertFalse(set(rows) & set(ROWS[file]))
            status, output, errors = self.compare(file, rows)
            self.assertEqual((status, errors), (0, ""))
            self.assertEqual(output[-1], f"{len(rows)} of {len(rows)} scenes agree with the emulator")

    def test_the_rule_of_the_coverage_is_the_emulators(self):
        for file in COLOUR_FILES:
            for scene in scenes_in(file, text_of(ROWS[file])):
                columns = columns_of(scene, self.last_line(scene).objects)
                self.assertEqual(bytes(map(colour_shown, columns)).hex().upper(), scene.shown, scene.name)

    def test_the_rule_of_sizes_is_the_emulators(self):
        for file, players in (("sizes.txt", 199), ("resize.txt", 150)):
            found = 0
            for scene in scenes_in(file, text_of(ROWS[file])):
                columns = columns_of(scene, self.last_line(scene).objects)
                for player in PLAYER_BITS:
                    if all(copies_in(column.held, player) in ONE_COPY for column in columns):
                        found += 1
                        sizes, lit_now = sizes_read(columns, player), lit_columns(columns, player)
                        lines = (lit_by(columns, player, pixels_shown(start, sizes)) for start in range(160))
                        self.assertIn(lit_now, lines, (scene.name, player))
            self.assertEqual(found, players)

    def test_the_condition_under_which_resized_players_agree(self):
        agree = {
            (1, 2): lambda k: k >= 9 or k >= 2 and k % 2 == 0,
            (1, 4): lambda k: k >= 9 or k in (2, 6),
            (2, 4): lambda k: k == 0 or k % 4 in (1, 2),
            (4, 2): lambda k: k % 4 != 3,
        }
        found = []
        for scene in scenes_in("resize.txt", text_of(ROWS["resize.txt"])):
            columns = columns_of(scene, self.last_line(scene).objects)
            for player in PLAYER_BITS:
                sizes = sizes_read(columns, player)
                for at in (column.number for column in columns if is_resized(column, player)):
                    old, new = sizes[at - 1], sizes[at]
                    begun = [start + (5 if old == 1 else 6) for start in starts(columns, player, sizes, at)]
                    after = [(at - first) % 160 for first in begun]
                    self.assertTrue(any(map(agree.get((old, new), lambda k: k < 40), after)), (scene.name, player))
                    found.append(all(k < 8 * old for k in after))
        self.assertEqual((len(found), sum(found)), (100, 80))

    def test_a_refused_tape(self):
        for file, rows in ROWS.items():
            name = f"scene 5 of {file}"
            record, playfield = (6, "120E") if file == "emulator_scenes.txt" else (10, "1E0E")
            unknown = playfield[:2] + "2D"
            wrong = damaged(file, 0, lambda number, tape: tape.replace(playfield, unknown) if number == 5 else tape)
            output = self.assert_differs(len(rows) - 1, file, wrong)
            self.assertEqual(output[:2], [f"{name}: found 0 line bytes: expected 1920", f"{name}: the latches differ"])
            self.assertEqual(output[3], f"  program  refused 7 line 0 record {record}")

    def test_malformed_scenes(self):
        for file, rows in ROWS.items():
            cut = damaged(file, 1, lambda number, shown: shown[1:] if number == 75 else shown)
            for wrong in ([], rows[:-1], [*rows, rows[0]], cut):
                self.assert_fails("expected", file, wrong)
        for file in COLOUR_FILES:
            odd = damaged(file, 1, lambda number, shown: with_bit_flipped(shown, 0, 0) if number == 75 else shown)
            self.assert_fails(f"scene 75 of {file} is not well-formed: expected a tape, 160 colour bytes", file, odd)

    def test_programs(self):
        for file, rows in ROWS.items():
            first_halves = "sh -c 'target/bin/line_bytes | head -c 960'"
            output = self.assert_differs(0, file, rows, programs=(first_halves, PROGRAMS[1]))
            self.assertEqual(output[0], f"scene 1 of {file}: found 960 line bytes: expected 1920")
            self.assert_differs(0, file, rows, programs=("cat", PROGRAMS[1]))
            self.assert_differs(0, file, rows, programs=("true", PROGRAMS[1]))
            self.assert_differs(0, file, rows, programs=(PROGRAMS[0], "true"))
            missing = "'no/such program' cannot be run: No such file"
            self.assert_fails(missing, file, rows, programs=("no/such program", PROGRAMS[1]))
            self.assert_fails("'false' failed with status 1", file, rows, programs=(PROGRAMS[0], "false"))

    def test_no_such_scenes(self):
        with tempfile.TemporaryDirectory() as folder:
            status, output, errors = self.run_compare("--scenes", f"{folder}/colours.txt", *PROGRAMS)
        self.assertEqual((status, output), (1, []))
        self.assertRegex(errors, r"\A\S*/colours.txt: cannot be read: No such file or directory\n\Z")

    def test_usage(self):
        wrong = [(), PROGRAMS[:1], (*PROGRAMS, "true"), ("", "true"), ("'", "true")]
        names = ("", "scenes", "vectors", "colours", "colours.txt.old", "README.md")
        wrong += [("--scenes", name, *PROGRAMS) for name in names]
        for arguments in wrong:
            status, output, errors = self.run_compare(*arguments)
            self.assertEqual((status, output), (2, []), arguments)
            self.assertTrue(errors.startswith("usage: compare "), errors)


if __name__ == "__main__":
    unittest.main()
