"""The input of a command: a source or a tape, told apart by its bytes, from a file of any name or from standard input."""

import os
from typing import NamedTuple, Optional

from classroom.command import Failure, read_input, title_of
from classroom.notation import SourceError, SourceErrors, packed, parsed, source_text

TEXT_BYTES = 9  # no byte of a text is below; every tape has one, its version or the upper byte of a length
UTF_16 = (b"\xff\xfe", b"\xfe\xff")  # how such a text begins
RICH_TEXT = b"{\\rtf"
NEITHER = "found neither a source nor a tape: a source is plain text, saved as UTF-8, and a tape begins with the byte 01"
MOST_ERRORS = 100  # rows of a wrong source that a message names


class Input(NamedTuple):
    """An input: its name as given, its title in messages, its tape; for a source also its text and its scanlines, each a list of
    notation.Written."""

    name: str
    title: str
    tape: bytes
    text: Optional[str]
    lines: Optional[list]


def input_of(name):
    """The input of this name, a source or a tape. Fails with Failure, which has every mistake of a source."""
    title, data = contents(name)
    return tape_input(name, title, data) if is_tape(data) else source_input(name, title, data)


def source_of(name):
    """The input of this name, which must be a source. Fails as input_of does, and where it is a tape."""
    title, data = contents(name)
    if is_tape(data):
        raise Failure(f"{title}: found a tape: {instead('disassemble', 'source')}")
    return source_input(name, title, data)


def tape_of(name):
    """The input of this name, which must be a tape; it may be damaged. Fails with Failure, also where it is a source."""
    title, data = contents(name)
    if not is_tape(data):
        raise Failure(f"{title}: found a source: {instead('assemble', 'tape')}")
    return tape_input(name, title, data)


def instead(verb, result):
    """Which commands take what was found instead."""
    return f"'./glintstool {verb}' turns it into a {result}; './glintstool look' shows it"


def contents(name):
    """The title and the bytes of an input. Fails with Failure where it cannot be read, is empty, or is no text in UTF-8."""
    if name != "-" and os.path.isdir(name):
        raise Failure(f"{title_of(name)}: found a folder: expected a source or a tape; name a file in it")
    title, data = read_input(name)
    if not data:
        raise Failure(f"{title}: found no bytes: expected a source, which has a 'line' for each scanline, or a tape")
    if data.startswith(UTF_16):
        raise Failure(f"{title}: found UTF-16 text: save it as UTF-8")
    if is_tape(data) and data[0] >= TEXT_BYTES or data.startswith(RICH_TEXT):
        raise Failure(f"{title}: {NEITHER}")
    return title, data


def is_tape(data):
    """Whether bytes are a tape, perhaps damaged, and no text."""
    return min(data) < TEXT_BYTES


def tape_input(name, title, data):
    """The input that is a tape of these bytes."""
    return Input(name, title, data, None, None)


def source_input(name, title, data):
    """The input that is a source of these bytes. Fails with Failure, which has its mistakes."""
    try:
        text = source_text(data)
        lines = parsed(text)
    except SourceError as error:
        raise Failure(mistakes(title, [error])) from None
    except SourceErrors as wrong:
        raise Failure(mistakes(title, wrong.errors)) from None
    return Input(name, title, packed(lines), text, lines)


def mistakes(title, errors):
    """A row for each error of a source, up to a hundred, and how many more there are."""
    rows = [f"{title}:{error}" for error in errors[:MOST_ERRORS]]
    more = len(errors) - len(rows)
    if more:
        rows.append(f"{title}: {more} more {'row is' if more == 1 else 'rows are'} wrong")
    return "\n".join(rows)
