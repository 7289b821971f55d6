"""Tests of the notation, its reader, its assembler and its disassembler.
Run: python3 -m unittest classroom.tests.test_notation"""

import random
import re
import time
import unittest
from itertools import accumulate
from pathlib import Path
from unittest import mock

from classroom.notation import SourceError, SourceErrors, Written, assemble, disassemble, parsed, source_text
from classroom.registers import LEFT_OUT, MOTION, MOVABLE, REGISTERS
from classroom.tape_forms import TapeError, readable, unpack

DOCUMENT = Path(__file__).resolve().parent.parent / "NOTATION.md"
TABLE = DOCUMENT.parent.parent / "lessons/README.md"  # where the registers' table stands

# The registers and their addresses, as the chip's description lists them.
NAMES = """NUSIZ0 NUSIZ1 COLUP0 COLUP1 COLUPF COLUBK CTRLPF REFP0 REFP1 PF0 PF1 PF2 RESP0 RESP1 RESM0 RESM1 RESBL
    GRP0 GRP1 ENAM0 ENAM1 ENABL HMP0 HMP1 HMM0 HMM1 HMBL VDELP0 VDELP1 VDELBL HMOVE HMCLR CXCLR""".split()
ADDRESSES = bytes.fromhex(
    "04 05 06 07 08 09 0A 0B 0C 0D 0E 0F 10 11 12 13 14 1B 1C 1D 1E 1F 20 21 22 23 24 25 26 27 2A 2B 2C"
)
STROBES = bytes.fromhex("10 11 12 13 14 2A 2B 2C")
# The TIA's registers that are not the kit's.
OTHER_REGISTERS = """VSYNC VBLANK WSYNC RSYNC AUDC0 AUDC1 AUDF0 AUDF1 AUDV0 AUDV1 RESMP0 RESMP1
    CXM0P CXM1P CXP0FB CXP1FB CXM0FB CXM1FB CXBLPF CXPPMM INPT0 INPT1 INPT2 INPT3 INPT4 INPT5""".split()

# The case that the chip's description prints, as a source and as a tape.
SOURCE = "line\n  0 ENAM0 $02\n 30 RESM0\nline\nline\n  0 HMM0 $70\n  9 HMOVE\nline\n"
TAPE = bytes.fromhex("01 0006 001D02 1E1200 0000 0006 002270 092A00 0000")


def tape_of(lines):
    """The version 1 tape of lines given as lists of writes."""
    tape = b"\x01"
    for writes in lines:
        records = b"".join(bytes(write) for write in writes)
        tape += bytes([len(records) // 256, len(records) % 256]) + records
    return tape


class Registers(unittest.TestCase):
    def test_addresses(self):
        self.assertEqual(list(REGISTERS), NAMES)
        self.assertEqual(bytes(register.address for register in REGISTERS.values()), ADDRESSES)

    def test_strobes(self):
        strobes = bytes(register.address for register in REGISTERS.values() if register.strobe)
        self.assertEqual(strobes, STROBES)

    def test_movable_objects(self):
        self.assertEqual(MOTION, ("HMP0", "HMP1", "HMM0", "HMM1", "HMBL"))
        for thing, movable in MOVABLE.items():
            shown = f"GR{thing}" if thing in ("P0", "P1") else f"ENA{thing}"
            self.assertEqual(movable, (f"RES{thing}", f"HM{thing}", shown))

    def test_each_stands_in_the_table_with_its_address(self):
        rows = re.findall(r"^\| ([A-Z0-9 ]+) \| ([$A-F0-9to ]+) \|", TABLE.read_text("utf-8"), re.M)
        self.assertEqual(" ".join(names for names, _ in rows).split(), NAMES)
        for names, addresses in rows:
            places = [ADDRESSES[NAMES.index(name)] for name in names.split()]
            shown = [f"${place:02X}" for place in places]
            self.assertIn(addresses, (" ".join(shown), f"{shown[0]} to {shown[-1]}"), names)

    def test_each_name_assembles_to_its_address(self):
        for name, address in zip(NAMES, ADDRESSES):
            self.assertEqual(assemble(f"line\n 7 {name} $A5"), bytes([1, 0, 3, 7, address, 0xA5]), name)

    def test_each_address_is_printed_by_its_name(self):
        for address in range(256):
            name = NAMES[ADDRESSES.index(address)] if address in ADDRESSES else f"${address:02X}"
            self.assertEqual(disassemble(bytes([1, 0, 3, 7, address, 0xA5])), f"line  ; 0\n    7 {name} $A5\n")


class Text(unittest.TestCase):
    def test_printed_case(self):
        self.assertEqual(assemble(SOURCE), TAPE)

    def test_disassembled_case(self):
        text = "line  ; 0\n    0 ENAM0 $02\n   30 RESM0\nline  ; 1\nline  ; 2\n    0 HMM0 $70\n    9 HMOVE\nline  ; 3\n"
        self.assertEqual(disassemble(TAPE), text)

    def test_variations(self):
        variations = {
            "lower case": SOURCE.lower(),
            "mixed case": SOURCE.title(),
            "tabs": SOURCE.replace(" ", "\t"),
            "no-break spaces": SOURCE.replace(" ", "\u00a0"),
            "blanks at the ends": SOURCE.replace("\n", " \t\n"),
            "no blanks before": "\n".join(row.strip() for row in SOURCE.split("\n")),
            "CRLF": SOURCE.replace("\n", "\r\n"),
            "CR": SOURCE.replace("\n", "\r"),
            "no newline at the end": SOURCE.rstrip("\n"),
            "blank lines": SOURCE.replace("\n", "\n\n \n"),
            "comments": "; first\n" + SOURCE.replace("\n", ";line 1\n;; 5 GRP0\n"),
            "comments in other letters": SOURCE.replace("\n", " ; \u00e9\u2028\u4e00 9 GRP0 1\n"),
            "decimal": SOURCE.replace("$02", "2").replace("$70", "112"),
            "binary": SOURCE.replace("$02", "%10").replace("$70", "%01110000"),
            "hexadecimal clock": SOURCE.replace("30", "$1e"),
            "leading zeros": SOURCE.replace("30", "0" * 5000 + "30").replace("$02", "$0002").replace("9 ", "%00001001 "),
            "address": SOURCE.replace("HMM0", "$22").replace("ENAM0", "29").replace("HMOVE", "%101010"),
            "a strobe's value": SOURCE.replace("HMOVE", "HMOVE $00").replace("RESM0", "RESM0 0"),
        }
        for name, text in variations.items():
            self.assertEqual(assemble(text), TAPE, name)

    def test_byte_order_mark(self):
        self.assertEqual(assemble(source_text(b"\xef\xbb\xbf" + SOURCE.encode())), TAPE)

    def test_limits(self):
        self.assertEqual(assemble("line\n255 $FF %11111111\n0 255 $ff\n"), bytes.fromhex("01 0006 FFFFFF 00FFFF"))

    def test_a_strobe_keeps_its_value(self):
        self.assertEqual(assemble("line\n 30 RESM0 $05"), bytes.fromhex("01 0003 1E1205"))

    def test_no_lines(self):
        for text in ["", "\n", "; nothing"]:
            self.assertEqual(assemble(text), b"\x01")
        self.assertEqual(disassemble(b"\x01"), "; a tape of no lines\n")
        self.assertEqual(assemble(disassemble(b"\x01")), b"\x01")

    def test_most_writes(self):
        self.assertEqual(assemble("line\n" + "0 GRP0 1\n" * 228 + "line"), tape_of([[(0, 0x1B, 1)] * 228, []]))


    def test_motion_values(self):
        for motion in range(-8, 8):
            for name in ["HMP0", "hmp1", "HMM0", "HMM1", "HMBL", "$20", "33", "%100010", "$23", "$24"]:
                byte = unpack(assemble(f"line\n 0 {name} {motion:+d}"))[0][0][2]
                self.assertEqual(byte, (motion if motion >= 0 else 16 + motion) << 4, (name, motion))
        self.assertEqual(assemble("line\n0 HMM0 -0\n1 HMM0 +0007\n2 HMM0 7"), tape_of([[(0, 34, 0), (1, 34, 112), (2, 34, 7)]]))

    def test_examples_of_the_document(self):
        notation = DOCUMENT.read_text("utf-8").partition("\n## ")[0]
        first, signs, repeat = re.findall("(?:^    .*\n)+", notation, re.M)
        self.assertEqual(assemble(first), tape_of([[(0, 0x1D, 2), (30, 0x12, 0)], []]))
        self.assertEqual(assemble(signs), tape_of([[(0, 0x22, 0x70), (1, 0x20, 0xF0)]]))
        eight = [[(0, 0x2A, 0)]] * 8
        self.assertEqual(assemble(repeat), tape_of([[(0, 0x1D, 2), (1, 0x22, 0x10), (100, 0x12, 0)], *eight]))

    def test_parsed(self):
        lines = [[Written(2, 0, 0x1D, 2), Written(3, 30, 0x12, 0)], [], [Written(6, 0, 0x22, 0x70), Written(7, 9, 0x2A, 0)], []]
        self.assertEqual(parsed(SOURCE), lines)


class Repeats(unittest.TestCase):
    def test_lines(self):
        text = "line\n0 GRP0 1\nREPEAT $3 ; thrice\n line\n 1 GRP0 2\n line\nend\nline\n"
        first, second = [Written(2, 0, 0x1B, 1)], [Written(5, 1, 0x1B, 2)]
        self.assertEqual(parsed(text), [first, *[second, []] * 3, []])

    def test_once(self):
        self.assertEqual(assemble("repeat 1\nline\nend"), assemble("line"))

    def test_nested(self):
        text = "repeat 2\nrepeat 3\nline\n0 GRP0 1\nend\nline\nrepeat %10\nline\n0 GRP0 2\nend\nend"
        one, two = [(0, 0x1B, 1)], [(0, 0x1B, 2)]
        self.assertEqual(assemble(text), tape_of([one, one, one, [], two, two] * 2))

    def test_most_bytes(self):
        whole = "repeat 32766\nline\nend\n"  # with the version 65,533 bytes
        self.assertEqual(len(assemble("repeat 32767\nline\nend")), 65535)
        self.assertEqual(len(assemble("line\n0 GRP0 1\nrepeat 32765\nline\nend\n")), 65536)
        self.assertEqual(errors_of(whole + "line\n0 GRP0 1\nline\n0 GRP0 1"), [(5, TOO_LONG)])
        self.assertEqual(errors_of(whole + "line\nline\nline"), [(5, TOO_LONG)])
        self.assertEqual(errors_of("line\n" * 32768), [(32768, TOO_LONG)])

    def test_the_row_that_passes_the_limit(self):
        # The version and 13,107 lines of one write are 65,536 bytes.
        self.assertEqual(len(assemble("repeat 13107\nline\n0 GRP0 1\nend")), 65536)
        self.assertEqual(errors_of("repeat 13108\nline\n0 GRP0 1\nend"), [(2, TOO_LONG)])
        self.assertEqual(errors_of("line\nrepeat 13108\nline\n0 GRP0 1\nend"), [(4, TOO_LONG)])
        self.assertEqual(errors_of("repeat 2\nrepeat 13107\nline\n0 GRP0 1\nend\nline\nend"), [(6, TOO_LONG)])
        self.assertEqual(errors_of("repeat 2\nline\nrepeat 10000\nline\n0 GRP0 1\nend\nend"), [(4, TOO_LONG)])

    def test_random_repeats(self):
        chance = random.Random(7800)
        passed = 0
        with mock.patch("classroom.notation.MOST_BYTES", 200):
            for _ in range(2000):
                rows, expanded = random_repeats(chance, 1, 3)
                text = "\n".join(rows)
                sizes = accumulate(2 if rows[row - 1] == "line" else 3 for row in expanded)
                past = next((row for row, size in zip(expanded, sizes) if 1 + size > 200), None)
                self.assertEqual([row for row, _ in errors_of(text)], [past] if past else [], text)
                if past is None:
                    writes = [write.row for line in parsed(text) for write in line]
                    self.assertEqual(writes, [row for row in expanded if rows[row - 1] != "line"], text)
                passed += past is not None
        self.assertGreater(passed, 200)
        self.assertLess(passed, 1800)

    def test_the_limit_bounds_time(self):
        begun = time.monotonic()
        deep = 20000
        for times in ["1", "2", "32767"]:
            errors = errors_of(f"repeat {times}\n" * deep + "line\n" * 3 + "0 GRP0 1\n" + "end\n" * deep)
            self.assertEqual([message for _, message in errors], [] if times == "1" else [TOO_LONG])
        errors_of("repeat 32767\n" * deep + "end\n" * deep)
        self.assertLess(time.monotonic() - begun, 5)


class RoundTrips(unittest.TestCase):
    def same(self, lines):
        """Checks that the tape of these lines comes back from its notation."""
        tape = tape_of(lines)
        self.assertEqual(assemble(disassemble(tape)), tape)

    def test_random_tapes(self):
        chance = random.Random(2600)
        for _ in range(2500):
            any_address = chance.random() < 0.5
            addresses = range(256) if any_address else ADDRESSES
            most = chance.choice([0, 1, 3, 12])
            self.same([random_line(chance, most, addresses) for _ in range(chance.randrange(8))])

    def test_full_lines(self):
        chance = random.Random(228)
        for _ in range(50):
            self.same([random_writes(chance, 228, range(256)), [], random_writes(chance, 228, ADDRESSES)])

    def test_every_address_with_every_value(self):
        for value in range(256):
            self.same([[(clock, clock, value) for clock in range(128)], [(clock, clock, value) for clock in range(128, 256)]])


def random_repeats(chance, row, depth):
    """The rows of a source with nested repeats, the first of which has this number; and the numbers of its rows that begin a
    line or write, in the order in which the repeats take them."""
    rows, taken = [], []
    for _ in range(chance.randint(1, 3)):
        if depth and chance.random() < 0.5:
            times = chance.randint(1, 4)
            inner, again = random_repeats(chance, row + len(rows) + 1, depth - 1)
            rows += [f"repeat {times}", *inner, "end"]
            taken += again * times
        else:
            inner = ["line", *["0 GRP0 1"] * chance.randrange(4)]
            taken += range(row + len(rows), row + len(rows) + len(inner))
            rows += inner
    return rows, taken


def random_line(chance, most, addresses):
    """A line of up to so many writes; half of them have clocks out of order."""
    writes = random_writes(chance, chance.randint(0, most), addresses)
    return writes if chance.random() < 0.5 else sorted(writes)


def random_writes(chance, count, addresses):
    """So many writes of any clock and value to some of the addresses; one value in four is 0."""
    values = [*range(256), *[0] * 85]
    return [(chance.randrange(256), chance.choice(addresses), chance.choice(values)) for _ in range(count)]


CLOCK = "expected 'line', 'repeat', 'end' or a clock"
CLOCKS = "(0 to 227, $00 to $E3 or %0 to %11100011)"
NUMBERS = "(0 to 255, $00 to $FF or %0 to %11111111)"
MORE = "expected nothing more; a comment begins with ';'"
REGISTER = "expected a register name such as HMM0, or an address from $00 to $FF"
LIKE_NUSIZ0 = REGISTER.replace("HMM0", "NUSIZ0")
LIKE_ENAM0 = REGISTER.replace("HMM0", "ENAM0")
LIKE_COLUBK = REGISTER.replace("HMM0", "COLUBK")
NO_VALUE = "expected a value from 0 to 255; only a strobe needs none"
NO_0X = "hexadecimal is written with '$', not with '0x'"
NO_H = "hexadecimal is written with '$', not with 'h'"
NO_HASH = "a number is written without '#'"
NO_COMMAS = "words are divided by blanks, not by commas"
NO_SIGN = "only the value of a motion register, such as HMM0, has a sign"
MOTION_RANGE = "expected a motion value from -8 (right) to +7 (left), in decimal; a byte from $00 to $FF has no sign"
TIMES = "expected a number of times from 1 to 32767 ($7FFF)"
TOO_LONG = "here the tape passes 65,536 bytes, the most that it may have: write fewer lines or fewer repeats"

# Source, the line at fault, the message.
BAD_SOURCES = [
    ("0 GRP0 1\nline", 1, "found a write before the first 'line': expected 'line', which begins a scanline"),
    ("line 1", 1, "found '1' after 'line': " + MORE),
    ("line\nline line", 2, "found 'line' after 'line': " + MORE),
    ("line\n\n; here\n 30", 4, "found a clock alone: expected a register after it, such as HMM0"),
    ("line\n0 HMM2 $70", 2, f"unknown register 'HMM2': {REGISTER}"),
    ("line\n0 nus\u0131z0 0", 2, f"unknown register 'nus\u0131z0': {LIKE_NUSIZ0}"),
    ("line\n0 enamo 2", 2, f"unknown register 'enamo': {LIKE_ENAM0}"),
    ("line\n0 colorbk 2", 2, f"unknown register 'colorbk': {LIKE_COLUBK}"),
    ("line\n0 XYZ 2", 2, f"unknown register 'XYZ': {REGISTER}"),
    ("line\n0 HMM0 \u22121", 2, "found '\u22121': minus is written with '-': write -1"),
    ("line\n0 HMM0 \u20138", 2, "found '\u20138': minus is written with '-': write -8"),
    ("line\n0 HMM0 \uff0b7", 2, "found '\uff0b7': plus is written with '+': write +7"),
    ("line\n0 HMM0 #-1", 2, "found '#-1': a number is written without '#': write -1"),
    ("line\n0 HMM0 - 1", 2, "found '-' alone: a sign stands before its number without a blank: write -1"),
    ("line\n0 HMM0 \u2212 1", 2, "found '\u2212' alone: a sign stands before its number without a blank: write -1"),
    ("line\n0 ENAM0=2", 2, "found 'ENAM0=2': a value stands after a blank, without '=': write ENAM0 2"),
    ("line\n0 hmove=", 2, "found 'hmove=': a value stands after a blank, without '=': write hmove"),
    ("line\n# note", 2, "found '#': a comment begins with ';'"),
    ("line\n//note, with a comma", 2, "found '//note,': a comment begins with ';'"),
    ("line\n#note", 2, "found '#note': a comment begins with ';'"),
    ("line\n#5 HMOVE", 2, "found '#5': a number is written without '#': write 5"),
    ("line\n0 line", 2, f"unknown register 'line': {REGISTER}"),
    ("line\n0 HMM0", 2, f"found no value for HMM0: {NO_VALUE}"),
    ("line\n0 HMM0 ; $70", 2, f"found no value for HMM0: {NO_VALUE}"),
    ("line\n0 COLUP0", 2, f"found no value for COLUP0: {NO_VALUE}"),
    ("line\n0 $2D", 2, f"found no value for $2D: {NO_VALUE}"),
    ("line\n256 GRP0 1", 2, "found '256': expected a clock from 0 to 227 ($E3)"),
    ("line\n-1 GRP0 1", 2, "found '-1': a clock has no sign: write a number from 0 to 227"),
    ("line\nGRP0 1", 2, f"found 'GRP0': {CLOCK} {CLOCKS}"),
    ("lines", 1, f"found 'lines': {CLOCK} {CLOCKS}"),
    ("line\n0 $100 1", 2, "found '$100': expected an address from 0 to 255 ($FF)"),
    ("line\n0 $XY 1", 2, f"found '$XY': expected an address {NUMBERS}"),
    ("line\n0 GRP0 $100", 2, "found '$100': expected a value from 0 to 255 ($FF)"),
    ("line\n0 GRP0 %100000000", 2, "found '%100000000': expected a value from 0 to 255 ($FF)"),
    ("line\n0 GRP0 " + "1" * 5000, 2, f"found '{'1' * 24}...': expected a value from 0 to 255 ($FF)"),
    ("line\n0 GRP0 11000011", 2, "found '11000011': expected a value from 0 to 255 ($FF); in binary it is %11000011"),
    ("line\n0 GRP0 $1G", 2, f"found '$1G': expected a value {NUMBERS}"),
    ("line\n0 GRP0 %12", 2, f"found '%12': expected a value {NUMBERS}"),
    ("line\n0 GRP0 1F", 2, f"found '1F': expected a value {NUMBERS}"),
    ("line\n0 GRP0 1_0", 2, f"found '1_0': expected a value {NUMBERS}"),
    ("line\n0 GRP0 $", 2, f"found '$': expected a value {NUMBERS}"),
    ("line\n0 GRP0 \u0663", 2, f"found '\u0663': expected a value {NUMBERS}"),
    ("line\n0 GRP0 1 2", 2, "found '2' after the value: " + MORE),
    ("line\n30 RESM0 0 9 HMOVE", 2, "found '9' after the value: " + MORE),
    ("line\n" + "0 GRP0 1\n" * 229, 230, "found write number 229 of a line: expected at most 228"),
    ("line\r\n0 GRP0 1\r\nline\rx", 4, f"found 'x': {CLOCK} {CLOCKS}"),
    ("line\n0 GRP0 0x02", 2, f"found '0x02': {NO_0X}: write $02"),
    ("line\n0 GRP0 0X" + "0" * 5000 + "a", 2, f"found '0X{'0' * 22}...': {NO_0X}: write $0a"),
    ("line\n0x1E RESM0", 2, f"found '0x1E': {NO_0X}: write $1E"),
    ("line\n0 0x1B 1", 2, f"found '0x1B': {NO_0X}: write $1B"),
    ("line\n0 GRP0 0x100", 2, f"found '0x100': expected a value {NUMBERS}"),
    ("line\n0 GRP0 02h", 2, f"found '02h': {NO_H}: write $02"),
    ("line\n0 GRP0 0FFH", 2, f"found '0FFH': {NO_H}: write $FF"),
    ("line\n0 GRP0 0b101", 2, "found '0b101': binary is written with '%', not with '0b': write %101"),
    ("line\n0 GRP0 #$02", 2, f"found '#$02': {NO_HASH}: write $02"),
    ("line\n0 GRP0 #2", 2, f"found '#2': {NO_HASH}: write 2"),
    ("line\n0 GRP0 #0x2", 2, f"found '#0x2': {NO_HASH}: write $02"),
    ("line\n#0 GRP0 2", 2, f"found '#0': {NO_HASH}: write 0"),
    ("line\n0 #$1B 2", 2, f"found '#$1B': {NO_HASH}: write $1B"),
    ("line\n0 GRP0 " + "#" * 5000 + "2", 2, f"found '{'#' * 24}...': {NO_HASH}: write 2"),
    ("line\n0 GRP0 #", 2, f"found '#': expected a value {NUMBERS}"),
    ("line\n0, GRP0, 2", 2, f"found '0,': {NO_COMMAS}: write 0"),
    ("line\n0 GRP0, 2", 2, f"found 'GRP0,': {NO_COMMAS}: write GRP0"),
    ("line\n0,GRP0,#0x2", 2, f"found '0,GRP0,#0x2': {NO_COMMAS}: write 0 GRP0 $02"),
    ("line\n0 , GRP0 2", 2, f"found ',': {NO_COMMAS}: leave it out"),
    ("line\n,", 2, f"found ',': {NO_COMMAS}: leave it out"),
    ("line,\n0 GRP0 2", 1, f"found 'line,': {NO_COMMAS}: write line"),
    ("repeat 2,\nline\nend", 1, f"found '2,': {NO_COMMAS}: write 2"),
    ("line\n0 GRP0 -1", 2, f"found '-1': {NO_SIGN}: write a number from 0 to 255"),
    ("line\n0 GRP0 +5", 2, f"found '+5': {NO_SIGN}: write 5"),
    ("line\n0 GRP0 +256", 2, f"found '+256': {NO_SIGN}: write a number from 0 to 255"),
    ("line\n0 GRP0 " + "+" * 5000, 2, f"found '{'+' * 24}...': {NO_SIGN}: write a number from 0 to 255"),
    ("line\n+9 HMOVE", 2, "found '+9': a clock has no sign: write 9"),
    ("line\n0 -1 2", 2, "found '-1': an address has no sign: write a number from 0 to 255"),
    ("line\n0 HMM0 -9", 2, f"found '-9': {MOTION_RANGE}"),
    ("line\n0 HMM0 +8", 2, f"found '+8': {MOTION_RANGE}"),
    ("line\n0 $24 +" + "9" * 5000, 2, f"found '+{'9' * 23}...': {MOTION_RANGE}"),
    ("line\n0 HMP0 +$7", 2, f"found '+$7': {MOTION_RANGE}"),
    ("line\n0 HMP0 -", 2, f"found '-': {MOTION_RANGE}"),
    ("line\n0 HMM0 x", 2, f"found 'x': expected a motion value with its sign (-8 to +7) or a value {NUMBERS}"),
    ("line\n0 HMM0 256", 2, "found '256': expected a value from 0 to 255 ($FF)"),
    ("line\n3 WSYNC", 2, "WSYNC is left out of this kit: begin a new 'line' instead"),
    ("line\nwsync", 2, "WSYNC is left out of this kit: begin a new 'line' instead"),
    ("line\n0 VSync 2", 2, "VSYNC is left out of this kit, which has no sync: leave the row out"),
    ("line\n0 AUDV1 15", 2, "AUDV1 is left out of this kit, which has no sound: leave the row out"),
    ("line\n0 RESMP1 2", 2, "RESMP1 is not in this kit: strobe RESM1 to put the missile at a clock"),
    ("line\n0 CXPPMM 0", 2, "CXPPMM is read, not written: the latches stand in the cx row"),
    ("line\n0 INPT4", 2, "INPT4 is read, not written, and this kit has no inputs: leave the row out"),
    ("repeat\nline\nend", 1, "found 'repeat' alone: expected a number of times after it, from 1 to 32767"),
    ("repeat 0\nline\nend", 1, "found '0': expected a number of times from 1 to 32767 ($7FFF)"),
    ("repeat 32768\nline\nend", 1, "found '32768': expected a number of times from 1 to 32767 ($7FFF)"),
    ("repeat %1000000000000000\nline\nend", 1, f"found '%1000000000000000': {TIMES}"),
    ("repeat -1\nline\nend", 1, "found '-1': a number of times has no sign: write a number from 1 to 32767"),
    ("repeat x\nline\nend", 1, "found 'x': expected a number of times (1 to 32767, $01 to $7FFF or %1 to %111111111111111)"),
    ("repeat 2 line\nline\nend", 1, "found 'line' after 'repeat 2': " + MORE),
    ("repeat 2\nline\nend 2", 3, "found '2' after 'end': " + MORE),
    ("line\nrepeat 2\nend", 2, "found no line between 'repeat' and 'end': write the lines to repeat there"),
    ("line\nrepeat 2\nline", 2, "found no 'end' for this 'repeat': write 'end' after the lines that it repeats"),
    ("line\nend", 2, "found 'end' without a 'repeat': write 'repeat N' before the lines to repeat, or leave 'end' out"),
    ("line\nrepeat 2\n0 GRP0 1\nend", 3, "found a write after 'repeat': expected 'line', which begins a scanline"),
    ("repeat 2\nline\nend\n0 GRP0 1", 4, "found a write after 'end': expected 'line', which begins a scanline"),
]

# Source, the lines at fault: each once, and no mistake makes another.
SEVERAL = [
    ("line\n0 HMM2 1\n0 HMM3 1\n0 GRP0 1\n\n300 GRP0 0x2", [2, 3, 6]),
    ("0 GRP0 1\n1 GRP0 1\n2 GRP0", [1, 3]),
    ("lines\n0 GRP0 1", [1]),
    ("line 0\n0 GRP0 1\nline 1\n0 GRP0 1", [1, 3]),
    ("line\n" + "0 GRP0 1\n" * 300 + "line\n" + "0 GRP0 1\n" * 300, [230, 531]),
    ("repeat x\n0 GRP0 1\n1 GRP0 1\nend\n0 GRP0 1\n1 GRP0 1", [1, 2, 5]),
    ("line\nend\n0 GRP0 1\nend", [2, 4]),
    ("repeat 2\nrepeat 3\nline\n0 GRP0", [1, 2, 4]),
    ("repeat 2\nrepeat 3\nend\nend", [1, 2]),
    ("repeat 2\nrepeat 3\nlin\nend\nend", [3]),
    ("repeat 2\n0 GRP0\nline\nend", [2]),
    ("repeat 32767\nline\n0 GRP0 1\nend\n0 HMM2 1\nline 1", [2, 5, 6]),
    ("x\nrepeat 32767\nline\n0 GRP0 1\nend", [1, 4]),
]

# Bytes of a source, the line at fault, the message.
BAD_BYTES = [
    (b"\xff\xfel\x00i\x00", 1, "found the byte $FF: expected UTF-8 text; save it as UTF-8"),
    (b"line\r\n ; caf\xe9\r\n", 2, "found the byte $E9: expected UTF-8 text; save it as UTF-8"),
    (b"line\n\xe2\x82", 2, "found the byte $E2: expected UTF-8 text; save it as UTF-8"),
]

LENGTH = "expected a multiple of 3, at most 684"

# Tape in hexadecimal, the byte's place, the refusal's number, the message.
BAD_TAPES = [
    ("", 0, 8, "the tape is empty: expected the version byte $01"),
    ("00", 0, 8, "the version byte is $00: expected $01"),
    ("02 00000000", 0, 8, "the version byte is $02: expected $01"),
    ("01 00", 1, 9, "the tape ends inside the length of line 0: expected two bytes, found one"),
    ("01 0003 001B01 0000 FF", 8, 9, "the tape ends inside the length of line 2: expected two bytes, found one"),
    ("01 0004 001B0101", 1, 4, f"the length of line 0 is 4: {LENGTH}"),
    ("01 0000 02AF" + "00" * 687, 3, 4, f"the length of line 1 is 687: {LENGTH}"),
    ("01 FFFF", 1, 4, f"the length of line 0 is 65535: {LENGTH}"),
    ("01 0005 00", 1, 4, f"the length of line 0 is 5: {LENGTH}"),
    ("01 0003", 1, 9, "the tape ends inside line 0: expected 3 bytes of writes, found 0"),
    ("01 0003 001B01 0006 001B01 01", 6, 9, "the tape ends inside line 1: expected 6 bytes of writes, found 4"),
]


def errors_of(text):
    """The line and the message of each error of a source."""
    try:
        assemble(text)
    except SourceErrors as wrong:
        return [(error.line, error.message) for error in wrong.errors]
    return []


class BadInput(unittest.TestCase):
    def test_bad_sources(self):
        for text, line, message in BAD_SOURCES:
            self.assertEqual(errors_of(text), [(line, message)], text[:80])

    def test_every_mistake_is_told(self):
        for text, lines in SEVERAL:
            self.assertEqual([line for line, _ in errors_of(text)], lines, text[:80])

    def test_every_register_that_is_left_out(self):
        self.assertEqual(sorted(LEFT_OUT), sorted(OTHER_REGISTERS))
        for name in OTHER_REGISTERS:
            self.assertEqual(errors_of(f"line\n0 {name.lower()} 1"), [(2, f"{name} {LEFT_OUT[name]}")])

    def test_errors_as_text(self):
        with self.assertRaises(SourceErrors) as caught:
            assemble("line 0\nline\n9")
        alone = "found a clock alone: expected a register after it, such as HMM0"
        self.assertEqual(str(caught.exception), f"1: found '0' after 'line': {MORE}\n3: {alone}")

    def test_bytes_that_are_no_text(self):
        for data, line, message in BAD_BYTES:
            with self.assertRaises(SourceError, msg=data) as caught:
                source_text(data)
            self.assertEqual((caught.exception.line, caught.exception.message), (line, message))

    def test_damaged_tapes(self):
        for digits, place, number, message in BAD_TAPES:
            with self.assertRaises(TapeError, msg=digits[:80]) as caught:
                disassemble(bytes.fromhex(digits))
            error = caught.exception
            self.assertEqual((error.place, error.number, error.message), (place, number, message))

    def test_every_cut_of_a_tape(self):
        borders = [1, 9, 11, 19, 21]
        for length in range(1, len(TAPE)):
            if length in borders:
                self.assertEqual(assemble(disassemble(TAPE[:length])), TAPE[:length])
                continue
            with self.assertRaises(TapeError) as caught:
                disassemble(TAPE[:length])
            place = max(border for border in borders if border < length)
            self.assertEqual((caught.exception.place, caught.exception.number), (place, 9))

    def test_the_readable_lines_of_a_cut_tape(self):
        borders = [1, 9, 11, 19, 21]
        for length in range(1, len(TAPE) + 1):
            whole = sum(1 for border in borders if border <= length) - 1
            self.assertEqual(readable(TAPE[:length]), unpack(TAPE)[:whole])

    def test_the_readable_lines_of_damaged_tapes(self):
        tapes = [("", 0), ("00", 0), ("02 00000000", 0), ("01", 0), ("01 0000 02AF", 1), ("01 0000 0000 0005 00", 2)]
        for digits, lines in tapes:
            self.assertEqual(readable(bytes.fromhex(digits)), [[]] * lines)


if __name__ == "__main__":
    unittest.main()
