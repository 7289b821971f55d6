"""Tests of the hints: their rows and words, and that what they say of HMOVE and of the bits that count is what the chip does.
Needs target/bin/line_bytes. Run: python3 -m unittest classroom.tests.test_hints"""

import subprocess
import unittest
from pathlib import Path

from classroom.hints import AT_REST, hints, most_motion, next_line_motion
from classroom.lines import CLOCKS, COLUMNS, lines_of, lit
from classroom.notation import parsed
from classroom.registers import MOTION, REGISTERS
from classroom.tape_forms import MOST_BYTES, pack

PROJECT = Path(__file__).resolve().parent.parent.parent
BEFORE = "write it before that, or at least 72 clocks after it"
EARLY = "write it at one of the clocks 0 to 15"
NEXT = "never to the right, and blanks nothing"
THESE = "write $00, or a value with one of these bits"
SHOWN = "0 ENAM0 2\n1 ENAM1 2\n2 ENABL 2\n3 GRP0 1\n4 GRP1 1\n"  # no object is dark


def told(text):
    """The hints on a source, as pairs of row and message."""
    return [tuple(hint) for hint in hints(parsed(text))]


def lines_run(scenes):
    """The lines that each scene runs, many of them in one tape. A scene has lines of writes: clock, register's name, value."""
    packable = [[sorted(map(addressed, line)) for line in lines] for lines in scenes]
    fitting = MOST_BYTES // max(len(pack(1, lines)) for lines in packable)
    run = []
    for first in range(0, len(packable), fitting):
        run += replayed(packable[first : first + fitting])
    return run


def addressed(write):
    """A write with its register's address in the place of its name."""
    clock, name, value = write
    return clock, REGISTERS[name].address, value


def replayed(scenes):
    """The lines that the proved program runs for each of these scenes, in one tape. Fails with ValueError on a refusal."""
    tape = pack(1, [line for lines in scenes for line in lines])
    lines = lines_of(subprocess.run([PROJECT / "target/bin/line_bytes"], input=tape, stdout=subprocess.PIPE, check=True).stdout)
    if len(lines) != sum(map(len, scenes)):
        raise ValueError(f"found {len(lines)} lines run: expected {sum(map(len, scenes))}")
    at = iter(lines)
    return [[next(at) for _ in scene] for scene in scenes]


def column(line):
    """The only column that missile 0 lights. Fails with ValueError where it lights none or more."""
    (only,) = [place for place in range(COLUMNS) if "M0" in lit(line.objects[place])]
    return only


def moved(first, final):
    """How far missile 0 is to the left on the last line, from -80 to 79."""
    return (column(first) - column(final) + 80) % COLUMNS - 80


def motion_scene(clock, half, *more):
    """The lines of a scene: missile 0 is placed with a motion value, shown, moved by an HMOVE at this clock, and shown on the
    second line after it. More writes have their clock counted from the HMOVE's line."""
    lines = [[(0, "ENAM0", 2), (1, "HMM0", half << 4), (150, "RESM0", 0)], [], [(clock, "HMOVE", 0)], [], []]
    for time, name, value in more:
        lines[2 + time // CLOCKS].append((time % CLOCKS, name, value))
    return lines


EVERY_CLOCK = [motion_scene(clock, 7) for clock in range(CLOCKS)]


def full_scene(last, name, value):
    """The lines of a scene in which every object shows, one of the players with an old graphic that is not its new one, by the
    GRP that is written last; and in which then a register gets this value and an HMOVE follows."""
    first = "GRP1" if last == "GRP0" else "GRP0"
    clear = [(clock, register, 0) for clock, register in enumerate(REGISTERS)]
    colours = [(0, "COLUP0", 0x46), (1, "COLUP1", 0x84), (2, "COLUPF", 0x1E), (3, "COLUBK", 0xC8)]
    enabled = [(4, "ENAM0", 2), (5, "ENAM1", 2), (10, "ENABL", 2), (11, "PF0", 0x50), (12, "PF1", 0x2C), (13, "PF2", 0x13)]
    graphics = [(6, last, 0x31), (7, first, 0x62), (8, last, 0xC5)]
    places = [(100, "RESP0", 0), (118, "RESM0", 0), (130, "RESP1", 0), (150, "RESM1", 0), (170, "RESBL", 0)]
    return [clear, [], colours + enabled + graphics + places, [(0, name, value)], [(0, "HMOVE", 0)], []]


class Chip(unittest.TestCase):
    """What the hints say of the chip, asked of the proved program."""

    def test_the_clocks_of_hmove(self):
        halves = range(16)
        motion = [half if half < 8 else half - 16 for half in halves]
        run = lines_run([motion_scene(clock, half) for clock in range(CLOCKS) for half in halves])
        all_moved = [moved(lines[1], lines[4]) for lines in run]
        by_clock = [all_moved[16 * clock : 16 * clock + 16] for clock in range(CLOCKS)]
        self.assertEqual([clock for clock in range(CLOCKS) if by_clock[clock] == motion], list(range(16)))
        self.assertEqual([clock for clock in range(CLOCKS) if not any(by_clock[clock])], list(range(68, 168)))
        for clock in range(16, 68):
            self.assertEqual(by_clock[clock], [min(value, most_motion(clock)) for value in motion], clock)
        for clock in range(168, CLOCKS):
            self.assertEqual(by_clock[clock], [max(value + next_line_motion(clock), 0) for value in motion], clock)

    def test_an_hmove_from_clock_68_on_blanks_nothing(self):
        blanks = [any(byte & 0x40 for line in lines for byte in line.objects) for lines in lines_run(EVERY_CLOCK)]
        self.assertEqual(blanks, [clock < 68 for clock in range(CLOCKS)])

    def test_an_hmove_from_clock_168_on_moves_on_the_next_line(self):
        for lines in lines_run(EVERY_CLOCK)[168:]:
            self.assertEqual((moved(lines[1], lines[2]), moved(lines[3], lines[4])), (0, 0))

    def test_motion_values_may_be_written_again_72_clocks_after_hmove(self):
        again = lines_run([motion_scene(clock, 7, (clock + AT_REST, "HMM0", 0x80)) for clock in range(2, CLOCKS)])
        for lines, others in zip(lines_run(EVERY_CLOCK)[2:], again):
            self.assertEqual(lines[1:], others[1:])

    def test_motion_values_written_early_change_the_move(self):
        scenes = [motion_scene(4, 7, (4 + after, "HMM0", 0x80)) for after in range(1, AT_REST)]
        changed = [after for after, lines in enumerate(lines_run(scenes), start=1) if moved(lines[1], lines[4]) != 7]
        self.assertEqual(changed[0], 1)
        self.assertLess(changed[-1], AT_REST)

    def test_the_bits_that_count(self):
        for name, register in REGISTERS.items():
            if register.strobe:
                continue
            values = [0, *(1 << bit for bit in range(8))]
            run = lines_run([full_scene(last, name, value) for last in ("GRP0", "GRP1") for value in values])
            both = [run[at] + run[9 + at] for at in range(9)]
            mask = sum(value for value, lines in zip(values, both) if lines != both[0])
            self.assertEqual(mask, register.mask, name)


# Source, the hints on it.
CASES = [
    ("line\n0 ENAM0 1", [(2, "ENAM0 reads $01 as $00, since only bit 1 counts: write $02")]),
    ("line\n0 HMM0 7", [(2, "HMM0 reads $07 as $00, since only bits 4-7 count: write +7 or $70")]),
    ("line\n0 $22 15", [(2, "HMM0 reads $0F as $00, since only bits 4-7 count: write -1 or $F0")]),
    ("line\n0 HMBL 8", [(2, "HMBL reads $08 as $00, since only bits 4-7 count: write -8 or $80")]),
    ("line\n0 PF0 $0F", [(2, "PF0 reads $0F as $00, since only bits 4-7 count: write $F0")]),
    ("line\n0 REFP0 1", [(2, "REFP0 reads $01 as $00, since only bit 3 counts: write $08")]),
    ("line\n0 VDELP1 $FE", [(2, "VDELP1 reads $FE as $00, since only bit 0 counts: write $01")]),
    ("line\n0 COLUBK 1", [(2, f"COLUBK reads $01 as $00, since only bits 1-7 count: {THESE}")]),
    ("line\n0 NUSIZ1 8", [(2, f"NUSIZ1 reads $08 as $00, since only bits 0-2 and 4-5 count: {THESE}")]),
    ("line\n0 CTRLPF $C8", [(2, f"CTRLPF reads $C8 as $00, since only bits 0-2 and 4-5 count: {THESE}")]),
    ("line\n0 ENAM0 0\n1 PF0 $1F\n2 COLUBK 3\n3 CXCLR 5\n4 NUSIZ0 $0F\n5 $30 1", []),
    (f"line\n{SHOWN}15 HMOVE", []),
    ("line\n16 HMOVE", [(2, f"HMOVE at clock 16 moves an object by its motion value only up to +6: {EARLY}")]),
    ("line\n67 HMOVE", [(2, f"HMOVE at clock 67 moves an object by its motion value only up to -6: {EARLY}")]),
    ("line\n68 HMOVE", [(2, f"HMOVE at clock 68 moves nothing: {EARLY}")]),
    ("line\n167 HMOVE", [(2, f"HMOVE at clock 167 moves nothing: {EARLY}")]),
    ("line\n168 HMOVE", [(2, f"HMOVE at clock 168 moves on the next line, by the motion value minus 6 and {NEXT}: {EARLY}")]),
    ("line\n192 HMOVE", [(2, f"HMOVE at clock 192 moves on the next line, by the motion value and {NEXT}: {EARLY}")]),
    ("line\n227 HMOVE", [(2, f"HMOVE at clock 227 moves on the next line, by the motion value plus 8 and {NEXT}: {EARLY}")]),
    ("line\n228 HMOVE\n229 ENAM0 1", []),
    ("line\n3 HMOVE\n4 HMCLR", [(3, f"HMCLR is written 1 clock after the HMOVE of row 2: {BEFORE}")]),
    ("line\n3 HMOVE\n74 HMM0 0", [(3, f"HMM0 is written 71 clocks after the HMOVE of row 2: {BEFORE}")]),
    ("line\n3 HMOVE\n75 HMCLR", []),
    ("line\n2 HMCLR\n3 HMOVE\n4 GRP0 0\n5 CXCLR", []),
    ("line\n3 HMOVE\n9 HMOVE\n78 HMCLR", [(4, f"HMCLR is written 69 clocks after the HMOVE of row 3: {BEFORE}")]),
    ("line\n0 RESM0\n1 RESM0", [(2, "M0 is strobed here, but is never enabled: write $02 to ENAM0")]),
    ("line\n0 HMM1 0\n1 HMM1 -1", [(3, "M1 gets a motion value here, but is never enabled: write $02 to ENAM1")]),
    ("line\n0 ENABL 0\n1 RESBL", [(3, "BL is strobed here, but is never enabled: write $02 to ENABL")]),
    ("line\n0 RESP0", [(2, "P0 is strobed here, but its graphic stays 0: write one to GRP0, such as $FF")]),
    ("line\n0 HMP1 +1\n1 GRP0 1", [(2, "P1 gets a motion value here, but its graphic stays 0: write one to GRP1, such as $FF")]),
    ("line\n0 RESM0\nline\nline\n0 ENAM0 $FF", []),
    ("line\n0 RESP1\nline\nline\n0 GRP1 $80", []),
    ("line\n0 RESM0\nline\n228 ENAM0 2", [(2, "M0 is strobed here, but is never enabled: write $02 to ENAM0")]),
    ("", []),
]


class Words(unittest.TestCase):
    def test_cases(self):
        for text, expected in CASES:
            self.assertEqual(told(text), expected, text)

    def test_no_hint_on_the_strobes_value(self):
        for name, register in REGISTERS.items():
            if register.strobe and name not in ("HMOVE", "HMCLR"):
                self.assertEqual(told(f"line\n{SHOWN}9 {name} 1"), [])

    def test_motion_registers_on_the_next_line(self):
        for clock, after, name in [(227, 1, "HMP0"), (227, 71, "HMP1"), (157, 71, "HMCLR"), (200, 40, "HMBL")]:
            text = f"line\n{SHOWN}{clock} HMOVE\nline\n{clock + after - CLOCKS} {name} 0"
            expected = f"{name} is written {after} clock{'s' if after > 1 else ''} after the HMOVE of row 7: {BEFORE}"
            self.assertEqual([hint for hint in told(text) if hint[0] > 7], [(9, expected)])
            later = f"line\n{SHOWN}{clock} HMOVE\nline\n{clock + 72 - CLOCKS} {name} 0"
            self.assertEqual([hint for hint in told(later) if hint[0] > 7], [])

    def test_each_motion_register(self):
        for name in [*MOTION, "HMCLR"]:
            self.assertEqual([row for row, _ in told(f"line\n{SHOWN}9 HMOVE\n19 {name} 0")], [8])

    def test_the_order_of_rows(self):
        text = "line\n0 RESP1\n1 RESM0\n2 PF0 1\n3 HMOVE\n4 HMCLR\n20 HMOVE\n30 ENAM1 1"
        self.assertEqual([row for row, _ in told(text)], [2, 3, 4, 6, 7, 8])

    def test_repeated_lines_give_their_hint_once(self):
        self.assertEqual([row for row, _ in told("repeat 100\nline\n0 PF0 1\n200 HMOVE\nline\n3 HMCLR\nend")], [3, 4, 6])

    def test_hints_at_a_row_are_different(self):
        text = "line\n3 HMOVE\n9 HMM0 $10"
        self.assertEqual([row for row, _ in told(text)], [3, 3])

    def test_lessons(self):
        found = {}
        for lesson in sorted((PROJECT / "lessons").glob("*.txt")):
            clocks = [message.split(" moves")[0] for _, message in told(lesson.read_text("utf-8"))]
            found.update({lesson.name[:2]: clocks} if clocks else {})
        late = ["HMOVE at clock 67", "HMOVE at clock 68", "HMOVE at clock 227"]
        self.assertEqual(found, {"09": ["HMOVE at clock 20"], "11": late})


if __name__ == "__main__":
    unittest.main()
