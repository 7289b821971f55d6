"""Tests of the input of a command: sources and tapes, told apart by their bytes, and the messages on what is neither.
Run: python3 -m unittest classroom.tests.test_source"""

import os
import subprocess
import sys
import tempfile
import unittest
from pathlib import Path

from classroom.command import Failure
from classroom.notation import Written, disassemble
from classroom.source import input_of, source_of, tape_of

PROJECT = Path(__file__).resolve().parent.parent.parent
SOURCE = b"line\n  0 ENAM0 $02\n"
TAPE = bytes.fromhex("01 0003 001D02")
LINES = [[Written(2, 0, 0x1D, 2)]]
READERS = (input_of, source_of, tape_of)
FROM_TAPE = "found a tape: './glintstool disassemble' turns it into a source; './glintstool look' shows it"
FROM_SOURCE = "found a source: './glintstool assemble' turns it into a tape; './glintstool look' shows it"
EMPTY = "found no bytes: expected a source, which has a 'line' for each scanline, or a tape"
# Reads standard input as the function that the first argument names does, and prints the title or the failure.
READ_STANDARD_INPUT = """
import sys
from classroom import command, source
try:
    print(getattr(source, sys.argv[1])("-").title)
except command.Failure as failure:
    print(failure)
"""


class Inputs(unittest.TestCase):
    def setUp(self):
        folder = tempfile.TemporaryDirectory()
        self.addCleanup(folder.cleanup)
        self.folder = folder.name

    def path(self, data, name="a"):
        """The path of a file with these bytes."""
        path = os.path.join(self.folder, name)
        Path(path).write_bytes(data)
        return path

    def failure(self, reader, name):
        """What a reader tells of an input that it does not take."""
        with self.assertRaises(Failure) as caught:
            reader(name)
        return str(caught.exception)

    def piped(self, reader, data):
        """What a reader makes of these bytes on standard input: its title or what it tells."""
        command = [sys.executable, "-B", "-c", READ_STANDARD_INPUT, reader.__name__]
        done = subprocess.run(command, input=data, capture_output=True, cwd=PROJECT, check=True)
        return done.stdout.decode().rstrip("\n")

    def test_a_source_has_any_name(self):
        for name in ["a.txt", "a.tape", "a", "tape"]:
            path = self.path(SOURCE, name)
            for reader in (input_of, source_of):
                self.assertEqual(reader(path), (path, path, TAPE, SOURCE.decode(), LINES))

    def test_a_tape_has_any_name(self):
        for name in ["a.txt", "a.tape", "a", "line"]:
            path = self.path(TAPE, name)
            for reader in (input_of, tape_of):
                self.assertEqual(reader(path), (path, path, TAPE, None, None))

    def test_fields(self):
        given = input_of(self.path(SOURCE))
        self.assertEqual((given.name, given.title), (given.name, given.name))
        self.assertEqual((given.tape, given.text, given.lines), (TAPE, SOURCE.decode(), LINES))

    def test_the_wrong_kind(self):
        path = self.path(TAPE, "a.txt")
        self.assertEqual(self.failure(source_of, path), f"{path}: {FROM_TAPE}")
        for data in [SOURCE, b"line 1", b"\xe9"]:
            path = self.path(data, "a.tape")
            self.assertEqual(self.failure(tape_of, path), f"{path}: {FROM_SOURCE}")

    def test_damaged_tapes_are_tapes(self):
        for digits in ["01", "00", "02 0000", "08 0003 001D02", "01 0003 00"]:
            path = self.path(bytes.fromhex(digits))
            self.assertEqual(input_of(path), (path, path, bytes.fromhex(digits), None, None))
            self.assertEqual(self.failure(source_of, path), f"{path}: {FROM_TAPE}")

    def test_every_lesson_and_its_tape(self):
        for source in sorted((PROJECT / "lessons").glob("*.txt")):
            tape = source.with_suffix(".tape")
            self.assertEqual(source_of(str(source)).tape, tape.read_bytes())
            self.assertEqual(tape_of(str(tape)).tape, tape.read_bytes())
            self.assertEqual(source_of(self.path(disassemble(tape.read_bytes()).encode())).tape, tape.read_bytes())

    def test_texts(self):
        for data in [b"\xef\xbb\xbf" + SOURCE, SOURCE.replace(b"\n", b"\r\n"), "; \u00e9\n".encode() + SOURCE.upper()]:
            self.assertEqual(input_of(self.path(data)).tape, TAPE)
        path = self.path(SOURCE + b"\f")
        self.assertTrue(self.failure(input_of, path).startswith(f"{path}:3: found '\\x0c': expected 'line'"))

    def test_a_source_without_lines(self):
        self.assertEqual(source_of(self.path(b"; nothing\n"))[2:], (b"\x01", "; nothing\n", []))

    def test_empty(self):
        path = self.path(b"")
        for reader in READERS:
            self.assertEqual(self.failure(reader, path), f"{path}: {EMPTY}")

    def test_folder(self):
        for reader in READERS:
            message = f"{self.folder}: found a folder: expected a source or a tape; name a file in it"
            self.assertEqual(self.failure(reader, self.folder), message)

    def test_missing(self):
        path = os.path.join(self.folder, "missing")
        for reader in READERS:
            self.assertEqual(self.failure(reader, path), f"{path}: found no such file: name a source or a tape")

    def test_utf_16(self):
        for coding in ["utf-16-le", "utf-16-be"]:
            path = self.path(("\ufeff" + SOURCE.decode()).encode(coding))
            for reader in READERS:
                self.assertEqual(self.failure(reader, path), f"{path}: found UTF-16 text: save it as UTF-8")

    def test_other_codings(self):
        path = self.path(b"line\n; caf\xe9\n")
        self.assertEqual(self.failure(input_of, path), f"{path}:2: found the byte $E9: expected UTF-8 text; save it as UTF-8")

    def test_every_mistake(self):
        path = self.path(b"line\n0 WSYNC\n1 GRP0 1\n2 GRP0 0x2\n")
        rows = [
            f"{path}:2: WSYNC is left out of this kit: begin a new 'line' instead",
            f"{path}:4: found '0x2': hexadecimal is written with '$', not with '0x': write $02",
        ]
        for reader in (input_of, source_of):
            self.assertEqual(self.failure(reader, path).split("\n"), rows)

    def test_at_most_a_hundred_mistakes(self):
        for count, last in [(100, "found '30'"), (101, "1 more row is wrong"), (130, "30 more rows are wrong")]:
            path = self.path(b"line 30\n" * count)
            rows = self.failure(input_of, path).split("\n")
            self.assertEqual(len(rows), min(count, 101))
            self.assertTrue(rows[99].startswith(f"{path}:100: found '30' after 'line'"))
            self.assertIn(last, rows[-1])
        self.assertEqual(rows[-1], f"{path}: 30 more rows are wrong")

    def test_neither_a_source_nor_a_tape(self):
        message = "found neither a source nor a tape: a source is plain text, saved as UTF-8, and a tape begins with the byte 01"
        png = (PROJECT / "lessons/13-colour.png").read_bytes()
        for data in (png, b"PK\x03\x04", b"l\0i\0n\0e\0", b"\x7fELF\x02", b"{\\rtf1 line}", b"\x41\x02\x03"):
            path = self.path(data)
            for reader in READERS:
                self.assertEqual(self.failure(reader, path), f"{path}: {message}")

    def test_standard_input(self):
        title = "standard input"
        for reader, data, told in [
            (input_of, SOURCE, title),
            (input_of, TAPE, title),
            (source_of, SOURCE, title),
            (tape_of, TAPE, title),
            (source_of, TAPE, f"{title}: {FROM_TAPE}"),
            (tape_of, SOURCE, f"{title}: {FROM_SOURCE}"),
            (input_of, b"", f"{title}: {EMPTY}"),
            (input_of, b"line\n0 WSYNC", f"{title}:2: WSYNC is left out of this kit: begin a new 'line' instead"),
        ]:
            self.assertEqual(self.piped(reader, data), told)


if __name__ == "__main__":
    unittest.main()
