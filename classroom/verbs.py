"""The verbs of ./glintstool: each takes its arguments, writes its output and gives the exit status."""

import os
import shutil
import sys

from classroom import programs
from classroom.cards import pages_of
from classroom.command import Failure, check_binary, is_terminal, text_bytes, write_output
from classroom.hints import hints
from classroom.letters import WHOLE, Layout, fitting_layout, not_run, plain, shown
from classroom.lines import ending, is_coloured, record_at_fault
from classroom.notation import disassemble as source_of_tape
from classroom.notation import write_text
from classroom.page import PageInput
from classroom.page import page as page_text
from classroom.source import input_of, source_of, tape_of
from classroom.steps import clocks_of, first_strobed, table
from classroom.tape_forms import MOST_BYTES, TapeError, readable
from classroom.television import NTSC, PAL, picture_rows, png
from classroom.terminal import has_colour, look_of

REFUSALS = programs.PROJECT / "docs/REFUSALS.md"
NO_LINE = "found no 'line': expected one for each scanline"
ALL_BLACK = "every column drawn is black: write COLUBK, or the colour of an object that is lit (lesson 13)"


def look(arguments):
    """Shows the lines of a tape as letters."""
    given = input_of(arguments.file)
    give_hints(given, arguments.quiet)
    replay = programs.replay(given.tape)
    coloured = has_colour(arguments.colour, sys.stdout, os.environ)
    style = look_of(replay.lines, standard_of(arguments), os.environ) if coloured else plain
    layout = Layout(arguments.fold) if arguments.fold else layout_of(sys.stdout)
    end = ending_of(replay.last)
    if arguments.lines and arguments.lines[0] >= len(replay.lines):
        raise lines_missing(given, *arguments.lines, len(replay.lines), end)
    write_rows([*shown(replay.lines, end, arguments.lines, layout, style), *place_rows(given, end)])
    return status_of(given, end)


def list(arguments):
    """Prints the listing of a tape."""
    given = input_of(arguments.file)
    give_hints(given, arguments.quiet)
    listing = programs.listing(given.tape)
    end = ending_of(listing.splitlines()[-1] if listing else "")
    write_output("-", "-", listing.encode())
    tell([] if is_whole(end) else [end.words], place_rows(given, end))
    return status_of(given, end)


def picture(arguments):
    """Draws the lines of a tape as a PNG file."""
    check_binary(arguments.output, "picture")
    given = input_of(arguments.file)
    give_hints(given, arguments.quiet)
    replay = programs.replay(given.tape)
    end = ending_of(replay.last)
    lines = chosen_lines(given, replay.lines, end, arguments.lines)
    if not is_coloured(lines):
        hint(f"{given.title}: hint: {ALL_BLACK}", arguments.quiet)
    write_output(arguments.output, arguments.file, png(picture_rows(lines, standard_of(arguments), arguments.scale)))
    tell(end_rows(given, end))
    return status_of(given, end)


def page(arguments):
    """Writes the page of a tape."""
    given = input_of(arguments.file)
    give_hints(given, arguments.quiet)
    replay = programs.replay(given.tape)
    end = ending_of(replay.last)
    lines = chosen_lines(given, replay.lines, end, arguments.lines) if arguments.lines else replay.lines
    shown_page = PageInput(
        title=given.title,
        lines=lines,
        writes=writes_of(given),
        ending=end,
        standard=standard_of(arguments),
        first=arguments.lines[0] if arguments.lines else 0,
    )
    write_output(arguments.output, arguments.file, text_bytes(page_text(shown_page)))
    tell(end_rows(given, end))
    return status_of(given, end)


def step(arguments):
    """Prints the state after each clock of a line."""
    given = input_of(arguments.file)
    give_hints(given, arguments.quiet)
    records = programs.clock_bytes(given.tape, arguments.line)
    *rows, last = programs.listing(given.tape).splitlines() or [""]
    end = ending_of(last)
    if not records:
        raise lines_missing(given, arguments.line, arguments.line, len(rows[1:]), end)
    writes = writes_of(given)
    name = arguments.object or first_strobed(writes)
    first, final = arguments.clocks or (0, len(records))
    texts = {clock: write_text(clock, address, value)[4:] for _, clock, address, value in writes[arguments.line]}
    try:
        rows = table(clocks_of(records, name), name, first, final, texts)
    except ValueError as error:
        raise Failure(f"target/bin/clock_bytes: {error}") from None
    write_rows([f"{given.title}, line {arguments.line}, {name}", *rows])
    tell(end_rows(given, end))
    return status_of(given, end)


def assemble(arguments):
    """Turns a source into a tape."""
    check_binary(arguments.output, "tape")
    given = source_of(arguments.file)
    give_hints(given, arguments.quiet)
    if given.lines == []:
        hint(f"{given.title}: hint: {NO_LINE}", arguments.quiet)
    write_output(arguments.output, arguments.file, given.tape)
    return 0


def disassemble(arguments):
    """Turns a tape into a source."""
    given = tape_of(arguments.file)
    if len(given.tape) > MOST_BYTES:
        end = ending_of("tape too long")
        raise Failure(f"{given.title}: {end.last}: {end.words}")
    try:
        text = source_of_tape(given.tape)
    except TapeError as error:
        raise Failure(f"{given.title}: {error}") from None
    write_output(arguments.output, arguments.file, text.encode())
    return 0


def cards(arguments):
    """Prints the classroom cards; where the output is no terminal, each page but the first begins with a form feed."""
    try:
        pages = pages_of(programs.card_bytes())
    except ValueError as error:
        raise Failure(f"target/bin/card_bytes: {error}") from None
    between = "\n" if is_terminal(sys.stdout) else "\f"
    write_output("-", "-", text_bytes(between.join("".join(f"{row}\n" for row in page) for page in pages)))
    return 0


def ending_of(last):
    """What a listing's last line says. Fails with Failure on a line that ends no listing, or without docs/REFUSALS.md."""
    try:
        return ending(last, REFUSALS.read_text("utf-8"))
    except OSError as error:
        raise Failure(f"docs/REFUSALS.md: {error.strerror}") from None
    except ValueError as error:
        raise Failure(f"target/bin/listing: {error}") from None


def standard_of(arguments):
    """The television standard that the arguments ask for."""
    return PAL if arguments.pal else NTSC


def layout_of(stream):
    """The layout that fits a terminal; where the output is none, rows of all columns."""
    return fitting_layout(shutil.get_terminal_size().columns) if is_terminal(stream) else WHOLE


def write_rows(rows):
    """Writes rows of text to standard output."""
    write_output("-", "-", text_bytes("".join(f"{row}\n" for row in rows)))


def hint(words, quiet):
    """Tells a hint on standard error, unless hints are silenced."""
    if not quiet:
        tell([words])


def give_hints(given, quiet):
    """Tells the hints on a source, with file and row."""
    for row, message in hints(given.lines or []):
        hint(f"{given.title}:{row}: hint: {message}", quiet)

def writes_of(given):
    """The writes of each line of an input, run or not: row of the source or None, clock, address, value."""
    if given.lines is not None:
        return given.lines
    return [[(None, *write) for write in writes] for writes in readable(given.tape)]


def chosen_lines(given, lines, end, chosen):
    """Of the lines that were run the chosen ones; all without a choice. Fails with Failure where there is none."""
    first, final = chosen or (0, max(len(lines) - 1, 0))
    found = lines[first : final + 1]
    if not found:
        raise lines_missing(given, first, final, len(lines), end)
    if final >= len(lines):
        tell([f"{given.title}: {not_run(len(lines), final, len(lines))}"])
    return found


def lines_missing(given, first, final, count, end):
    """The Failure that says that these lines were not run, a tape having run so many, and why."""
    return Failure("\n".join([f"{given.title}: {not_run(first, final, count)}", *end_rows(given, end)]))


def is_whole(end):
    """Whether a tape was run to its end."""
    return end.last.startswith("cx")


def status_of(given, end):
    """The exit status: 1 for a tape that was not run to its end, and for a source without a line."""
    return 0 if is_whole(end) and given.lines != [] else 1


def end_rows(given, end):
    """What to tell of a tape that was not run to its end, or has no lines: the listing's last line, what it means, its place."""
    return [*([] if is_whole(end) else [end.last, end.words]), *place_rows(given, end)]


def place_rows(given, end):
    """Where in a source the write stands that is refused, or that it has no line; where a tape is damaged; nothing where there is
    no such place."""
    if given.lines == []:
        return [f"{given.title}: {NO_LINE}"]
    record = record_at_fault(end)
    if given.lines is None:
        return damage_rows(given) if end.refused and record is None else []
    if record is None:
        return []
    row, *write = given.lines[end.refused[1]][record]
    return [f"{given.title}:{row}: {write_text(*write).strip()}"]


def damage_rows(given):
    """Where a tape is damaged; nothing where it can be read whole."""
    try:
        source_of_tape(given.tape)
    except TapeError as error:
        return [f"{given.title}: {error}"]
    return []


def tell(*rows):
    """Writes rows of text to standard error."""
    for row in [row for part in rows for row in part]:
        print(row, file=sys.stderr)
