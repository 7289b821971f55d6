"""A tape's picture as text: object bytes as rows of letters under a ruler, overlaps named at their lines, the legend."""

from functools import lru_cache
from itertools import groupby
from typing import NamedTuple

from classroom.lines import COLUMNS, OBJECTS, UNSHOWN, lit, span

LETTERS = dict(zip(OBJECTS, "PQMNBF"))
MARKS = {**LETTERS, "overlap": "*", "blanked": "-", "nothing": "."}
MARGIN = 6  # characters left of a row: the line's number and a space
NARROWEST = 10  # columns side by side, however narrow the terminal is


class Layout(NamedTuple):
    """How rows are laid out: the columns side by side, and whether a line's number stands above its row, or left of it."""

    fold: int
    above: bool = False


WHOLE = Layout(COLUMNS)


def fitting_layout(width):
    """The layout for a terminal so wide; where 80 columns fit but no number beside them, the numbers stand above."""
    if width > MARGIN + COLUMNS:
        return WHOLE
    if width > MARGIN + 80:
        return Layout(80)
    if width >= 80:
        return Layout(80, above=True)
    return Layout(min(40, max(NARROWEST, width - MARGIN)))


def plain(character, object_byte, colour_byte):
    """The look of a character without colour: none."""
    return ""


def shown(lines, end, chosen=None, layout=WHOLE, look=plain):
    """The rows that show a tape: of the lines that were run those from the first to the last chosen (all without a choice) with
    their legend, and how it ended. look gives the terminal's codes for a character, its object byte and its colour byte."""
    first, final = chosen or (0, max(len(lines) - 1, 0))
    numbers = range(len(lines))[first : final + 1]
    rows = picture(lines, numbers, layout, look) if numbers else []
    if final >= len(lines):
        rows.append(not_run(max(first, len(lines)), final, len(lines)))
    return [*rows, end.last, end.words]


def picture(lines, numbers, layout, look):
    """The rows for the lines with these numbers: for each part of so many columns the ruler and that part of every line with
    its overlaps; then the legend."""
    rows = []
    for start in range(0, COLUMNS, layout.fold):
        columns = range(start, min(start + layout.fold, COLUMNS))
        rows += ruler(columns, layout)
        for number in numbers:
            rows += line_rows(lines[number], number, columns, layout, look)
        rows.append("")
    return [*rows, *legend([lines[number].objects for number in numbers], width_of(layout))]


def line_rows(line, number, columns, layout, look):
    """The rows for these columns of a line: its number beside it and the overlaps beneath, or both above it."""
    row = marks(line, columns, look)
    found = overlaps(line.objects, columns)
    if not layout.above:
        return [f"{number:{MARGIN - 1}} {row}", *filled_rows(found, " " * MARGIN + "overlap", width_of(layout))]
    title = f"line {number}"
    return [*(filled_rows(found, f"{title}: overlap", width_of(layout)) or [title]), row]


def marks(line, columns, look):
    """The characters that show these columns of a line, with their looks."""
    cells = [(mark(line.objects[column]), line.objects[column], line.colours[column]) for column in columns]
    text = ""
    for codes, run in groupby(cells, key=lambda cell: look(*cell)):
        characters = "".join(cell[0] for cell in run)
        text += f"{codes}{characters}\x1b[0m" if codes else characters
    return text


def ruler(columns, layout=WHOLE):
    """The rows above these columns: hundreds, tens and ones of each, to be read downwards; no row of spaces alone."""
    numbers = [f"{column:3}" for column in columns]
    rows = ["".join(number[place] for number in numbers).rstrip() for place in range(3)]
    return [" " * (0 if layout.above else MARGIN) + row for row in rows if row]


@lru_cache(maxsize=None)
def mark(byte):
    """The character that shows an object byte."""
    names = lit(byte)
    if len(names) > 1:
        return MARKS["overlap"]
    if names:
        return MARKS[names[0]]
    return MARKS["blanked" if byte & UNSHOWN else "nothing"]


def overlaps(objects, columns):
    """The overlaps in these columns of a line, such as `36-39 P0 M0`: neighbours with the same objects are one."""
    found = []
    for names, run in groupby(columns, key=lambda column: lit(objects[column])):
        if len(names) > 1:
            together = list(run)
            found.append(" ".join((span(together[0], together[-1]), *names)))
    return found


def filled_rows(parts, title, width):
    """The rows that name these parts after a title, a new one begun where the width would be passed; none without parts."""
    rows = []
    for part in parts:
        if rows and len(rows[-1]) + len(f", {part}") <= width:
            rows[-1] += f", {part}"
        else:
            rows.append(f"{title} {part}")
    return rows


def legend(objects, width):
    """The rows that say what each character stands for that shows one of these lines' object bytes, within a width."""
    found = {mark(byte) for byte in set().union(*objects)}
    return filled_rows([f"{letter} = {name}" for name, letter in MARKS.items() if letter in found], "legend:", width)


def width_of(layout):
    """How many characters wide the rows of a layout are."""
    return layout.fold + (0 if layout.above else MARGIN)


def not_run(first, final, count):
    """That these lines were not run, and which were, a tape having run so many."""
    if count == 0:
        return "no line was run"
    return f"{lines_were(first, final)} not run; {lines_were(0, count - 1)}"


def lines_were(first, final):
    """The beginning of a sentence on these lines."""
    return f"line {first} was" if first == final else f"lines {span(first, final)} were"
