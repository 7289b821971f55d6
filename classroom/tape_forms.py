"""The forms of a tape, by version byte. A form packs lines into a tape and unpacks a tape into lines.
A line is a list of writes; a write is clock, address and value, each 0 to 255. Nothing here knows the chip."""

from typing import Callable, NamedTuple

MOST_BYTES = 65536  # of a tape that the programs take
MOST_WRITES = 228  # one for each clock of a line
LENGTH = 2  # bytes of a line's length
RECORD = 3  # bytes of a write


class TapeError(Exception):
    """A tape that cannot be read whole: the byte's place, counted from 0, the refusal's number, and what was expected."""

    def __init__(self, place, number, message):
        super().__init__(place, number, message)
        self.place = place
        self.number = number
        self.message = message

    def __str__(self):
        return f"byte {self.place}: {self.message} (refusal {self.number})"


class Form(NamedTuple):
    """A version's form: pack gives the tape's bytes after the version, unpack the lines of a tape, one after another."""

    pack: Callable
    unpack: Callable


def pack_1(lines):
    """The bytes after the version: for each line the length of its writes in two bytes, then the writes."""
    body = bytearray()
    for writes in lines:
        body += (RECORD * len(writes)).to_bytes(LENGTH, "big")
        for write in writes:
            body += bytes(write)
    return bytes(body)


def unpack_1(tape):
    """The lines of a version 1 tape, one after another. Fails with TapeError 9 or 4 at the first line that cannot be read."""
    line, place = 0, 1
    while place < len(tape):
        end = line_end_1(tape, place, line)
        yield [tuple(tape[at : at + RECORD]) for at in range(place + LENGTH, end, RECORD)]
        line, place = line + 1, end


def line_end_1(tape, place, line):
    """The place after the line that begins at this place. Fails with TapeError 9 or 4, in the chip's order of checks."""
    if place + LENGTH > len(tape):
        raise TapeError(place, 9, f"the tape ends inside the length of line {line}: expected two bytes, found one")
    length = int.from_bytes(tape[place : place + LENGTH], "big")
    if length % RECORD != 0 or length > RECORD * MOST_WRITES:
        expected = f"expected a multiple of {RECORD}, at most {RECORD * MOST_WRITES}"
        raise TapeError(place, 4, f"the length of line {line} is {length}: {expected}")
    follow = len(tape) - place - LENGTH
    if length > follow:
        raise TapeError(place, 9, f"the tape ends inside line {line}: expected {length} bytes of writes, found {follow}")
    return place + LENGTH + length


FORMS = {1: Form(pack_1, unpack_1)}


def pack(version, lines):
    """The tape of these lines in the form of this version."""
    return bytes([version]) + FORMS[version].pack(lines)


def unpack(tape):
    """The lines of a tape, in the form that its first byte names. Fails with TapeError on a tape that is damaged."""
    return list(each_line(tape))


def readable(tape):
    """The lines of a tape up to the first that cannot be read; none where its version is wrong."""
    lines = []
    try:
        for line in each_line(tape):
            lines.append(line)
    except TapeError:
        pass
    return lines


def each_line(tape):
    """The lines of a tape, one after another. Fails with TapeError where the tape is damaged."""
    if not tape:
        raise TapeError(0, 8, "the tape is empty: expected the version byte $01")
    if tape[0] not in FORMS:
        raise TapeError(0, 8, f"the version byte is ${tape[0]:02X}: expected $01")
    yield from FORMS[tape[0]].unpack(tape)
