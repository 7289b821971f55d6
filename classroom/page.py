"""A tape as one HTML page that needs no network: its picture, each line's strip of clocks with its writes, the latches, a
refusal. The parts of the page are page.html, page.css and page.js."""

import base64
import json
import re
from functools import lru_cache
from html import escape
from itertools import groupby
from pathlib import Path
from string import Template
from typing import NamedTuple, Optional

from classroom.letters import overlaps
from classroom.lines import BLANK, CLOCKS, COLUMNS, LATCHES, OBJECTS, UNSHOWN, Ending, Line
from classroom.lines import is_coloured, lit, met, record_at_fault, span
from classroom.notation import write_text
from classroom.television import BLACK, Standard, palette_of, pixel_row, png

FOLDER = Path(__file__).resolve().parent
FRAME = 312  # lines of a television's picture: one of more is higher than the window, and its beam long
LANES = 10  # rows of labels below a strip
CHARACTER = 2.2  # clocks that a character of a label takes where the page is narrow
TOO_LONG = "tape too long"  # the listing's last line of a tape that is not run at all
NO_LINE = "No line was run: the tape has none. In a source, each scanline begins with 'line'."
NO_COLOUR = "No colour shows on these lines: every colour byte is $00. The page opens with the objects, in colours of their own."

WORDS = dict(zip(OBJECTS, ("player 0", "player 1", "missile 0", "missile 1", "ball", "playfield")))

# The colours of the objects' view.
INKS = {
    **dict(zip(OBJECTS, ("D55E00", "0072B2", "E69F00", "56B4E9", "009E73", "CC79A7"))),
    "overlap": "000000",
    "blanked": "9C9CA6",
    "nothing": "F4F1E6",
}

# For bytes.translate of a line's object bytes: 1 where a byte lights the object, or is that of a blanked column.
HOLDS = {name: bytes(name in lit(byte) for byte in range(256)) for name in OBJECTS}
HOLDS["blanked"] = bytes(byte & UNSHOWN != 0 for byte in range(256))


class PageInput(NamedTuple):
    """What a page shows: the file's name; the lines that were run, or those chosen of them; the writes of each line of the tape,
    run or not, as row, clock, address and value, the row None for a tape; how the listing ends; the television's
    standard; the number of the first line of lines."""

    title: str
    lines: list
    writes: list
    ending: Ending
    standard: Standard
    first: int


class Shown(NamedTuple):
    """A line as the page shows it: its number, its bytes, None where it was not run, its writes, and the index of the record at
    fault, None where none is."""

    number: int
    line: Optional[Line]
    writes: list
    fault: Optional[int]


class Label(NamedTuple):
    """Where the label of a mark stands: its row below the strip, None where none has room, and whether it ends at its mark."""

    lane: Optional[int]
    ends: bool


def page(given):
    """The whole text of the page."""
    template, css, js = ((FOLDER / f"page.{kind}").read_text("utf-8") for kind in ("html", "css", "js"))
    return Template(template).substitute(
        title=escape(given.title),
        css=css,
        js=js,
        view=opening_view(given.lines),
        summary=summary(given),
        last_clock=CLOCKS - 1,
        picture=picture(given) if given.lines else "",
        beam=beam(given),
        latches=latches(given.ending),
        given=json.dumps(pointing(given), separators=(",", ":")),
    )


def pointing(given):
    """What the script needs beside the bytes at each line."""
    return {
        "clocks": CLOCKS,
        "blank": BLANK,
        "columns": COLUMNS,
        "unshown": UNSHOWN,
        "objects": OBJECTS,
        "palette": palette_of(given.standard),
        "black": BLACK.hex(),
    }


def shown_lines(given):
    """The lines on the page: those given; then the refused one, and after it the rest of the tape where no line before it is left
    out. None of a tape that is too long."""
    end = given.first + len(given.lines)
    shown = [Shown(number, line, given.writes[number], None) for number, line in enumerate(given.lines, given.first)]
    if given.ending.refused:
        refused = given.ending.refused[1]
        writes = given.writes[refused] if refused < len(given.writes) else []
        shown.append(Shown(refused, None, writes, record_at_fault(given.ending)))
        rest = given.writes[refused + 1 :] if end == refused else []
        shown += [Shown(number, None, writes, None) for number, writes in enumerate(rest, refused + 1)]
    return shown


def opening_view(lines):
    """The view that the page opens with; `plain` where there is no picture to view."""
    if not lines:
        return "objects plain"
    return "television" if is_coloured(lines) else "objects"


def summary(given):
    """The paragraphs below the title: what was run, who met or what was refused, and why the objects are shown first."""
    said = [f"<p>{sentence}</p>" for sentence in (run_sentence(given), end_sentence(given.ending)) if sentence]
    if given.lines and not is_coloured(given.lines):
        said.append(f'<p class="note">{NO_COLOUR}</p>')
    return "\n".join(said)


def run_sentence(given):
    """How many lines were run, which of them the page shows where lines were chosen, and the television's standard."""
    count = given.ending.refused[1] if given.ending.refused else len(given.writes)
    if given.ending.last == TOO_LONG or count == 0:
        return "No line was run." if given.writes or given.ending.refused else NO_LINE
    run = "1 line was run" if count == 1 else f"{count} lines were run"
    if not given.lines:
        return f"{run}, none is shown."
    chosen = f", {lines_named(given.first, given.first + len(given.lines) - 1)} shown" if len(given.lines) < count else ""
    return f"{run}{chosen}. {given.standard.name} colours."


def lines_named(first, final):
    """Lines by their numbers, with their verb."""
    return f"line {first} is" if first == final else f"lines {span(first, final)} are"


def end_sentence(ending):
    """How the tape ended, in a sentence."""
    if ending.refused:
        number, line, _ = ending.refused
        return f'<a href="#line-{line}">Line {line} is refused, number {number}</a>: neither it nor any line after it was run.'
    if latch_bytes(ending) is None:
        return escape(f"{ending.last[:1].upper()}{ending.last[1:]}. {ending.words}")
    return met_sentence(latch_bytes(ending))


def latch_bytes(ending):
    """The eight latch bytes of a listing's last line; None where it has none."""
    word, *rest = ending.last.split()
    return bytes.fromhex("".join(rest)) if word == "cx" else None


def met_sentence(cx):
    """Which objects have met, by the latch bytes."""
    pairs = "; ".join(" and ".join(WORDS[name] for name in pair.split("-")) for pair in met(cx))
    return f"By the end of the tape these have met: {pairs}." if pairs else "By the end of the tape no two objects have met."


def picture(given):
    """The picture of the lines in both views, with its rulers and what the colours mean."""
    count = len(given.lines)
    width = float(COLUMNS * given.standard.shape)
    tens = (at for at in range(count) if (given.first + at) % 10 == 0)
    numbers = "".join(f'<i style="--n:{at}">{given.first + at}</i>' for at in tens)
    images = image([pixel_row(line, given.standard) for line in given.lines], "tv", "The picture on the television.")
    images += image([objects_row(line) for line in given.lines], "ob", "The picture, each object in its own colour.")
    return (
        f'<section>\n<h2>Picture</h2>\n<div class="screen" style="--lines:{count};--shape:{width / min(count, FRAME):.4f}">\n'
        f'<div class="scale" aria-hidden="true">{ticks(0, COLUMNS, COLUMNS)}</div>\n'
        f'<div class="numbers" aria-hidden="true">{numbers}</div>\n'
        '<div id="picture" tabindex="0" role="application" aria-label="The picture: arrow keys move the place pointed at" '
        f'style="aspect-ratio:{width:.4f}/{count}">{images}</div>\n</div>\n'
        f"{legend('ob', inks_named())}\n{legend('tv', colours_found(given))}\n</section>"
    )


def image(rows, view, words=""):
    """An image of these rows of RGB bytes, for one view."""
    return f'<img class="{view}" alt="{words}" src="data:image/png;base64,{base64.b64encode(png(rows)).decode()}">'


@lru_cache(maxsize=4096)
def strip_image(row, view):
    """An image of one row of RGB bytes, for one view."""
    return image([row], view)


def objects_row(line):
    """The RGB bytes of a line in the objects' view."""
    return b"".join(map(ink, line.objects))


@lru_cache(maxsize=None)
def ink(byte):
    """The RGB bytes that show an object byte."""
    names = lit(byte)
    if len(names) > 1:
        return bytes.fromhex(INKS["overlap"])
    return bytes.fromhex(INKS[names[0] if names else "blanked" if byte & UNSHOWN else "nothing"])


def inks_named():
    """The colours of the objects' view; an object's name has its words."""
    return {f"{name} {WORDS[name]}" if name in WORDS else name: colour for name, colour in INKS.items()}


def colours_found(given):
    """The colour bytes of the lines' columns with their colours, and that of blanked columns where there are some."""
    columns = set().union(*(zip(*line) for line in given.lines))
    colours = sorted({colour for byte, colour in columns if not byte & UNSHOWN})
    found = {f"${colour:02X}": palette_of(given.standard)[colour >> 1] for colour in colours}
    return {**found, "blanked": BLACK.hex()} if any(byte & UNSHOWN for byte, _ in columns) else found


def legend(view, colours):
    """What the colours of a view mean."""
    entries = (f'<li><span class="swatch" style="background:#{colour}"></span> {name}</li>' for name, colour in colours.items())
    return f'<ul class="legend {view}">{"".join(entries)}</ul>'


def ticks(first, count, width):
    """The numbers of a ruler so many clocks or columns wide: every tenth from 0 up to count, 0 at the place first; and between
    them small marks."""
    numbers = "".join(f'<i style="--c:{first + at}">{at}</i>' for at in range(0, count, 10))
    marks = "".join(f"M{first + at} 0v4" for at in range(0, count, 2))
    return f'<svg viewBox="0 0 {width} 4" preserveAspectRatio="none"><path d="{marks}"/></svg>{numbers}'


def beam(given):
    """The beam: the ruler of clocks and columns, then every line shown; nothing where none is."""
    lines = shown_lines(given)
    if not lines:
        return ""
    ruler = "".join(
        f'<div class="row"><span class="name">{name}</span><div class="scale">{ticks(first, CLOCKS - first, CLOCKS)}</div></div>'
        for name, first in (("clock", 0), ("column", BLANK))
    )
    kind = ' class="long"' if len(lines) > FRAME else ""  # the browser then lays out what is in sight alone
    sections = "\n".join(section(shown, given) for shown in lines)
    return (
        f'<section>\n<h2>Beam</h2>\n<p class="note">Each strip is one line, clock 0 to {CLOCKS - 1} from left to right. The '
        f"hatched part is the horizontal blank, clocks 0 to {BLANK - 1}; clock {BLANK} is column 0. Below it stand the writes, "
        "each at its clock.</p>\n"
        f'<div id="beam"{kind} tabindex="0" role="group" aria-label="The beam: arrow keys move the place pointed at">\n'
        f'<div class="ruler" aria-hidden="true">{ruler}</div>\n{sections}\n</div>\n</section>'
    )


def section(shown, given):
    """A line of the beam: its number, strip, marks, and what it shows in words; a refusal where it happened."""
    kind, data, images, refusal = "line unrun", "", "", ""
    if shown.line:
        kind, data = "line", f' data-runs="{runs(shown.line)}"'
        images = strip_image(pixel_row(shown.line, given.standard), "tv") + strip_image(objects_row(shown.line), "ob")
    elif shown.number == given.ending.refused[1]:
        kind, refusal = "line unrun refused", refusal_note(shown, given)
    said = "" if refusal and not shown.writes else words(shown)  # of a line that cannot be read the writes are not known
    return (
        f'<section class="{kind}" id="line-{shown.number}"{data}><h3>{shown.number}</h3>'
        f'<div><div class="strip">{images}</div>{marks(shown)}</div>{said}{refusal}</section>'
    )


def runs(line):
    """The bytes of a line as runs of equal columns: object byte, colour byte and length, two hexadecimal digits each."""
    pairs = groupby(zip(*line))
    return "".join(f"{byte:02X}{colour:02X}{sum(1 for _ in run):02X}" for (byte, colour), run in pairs)


def marks(shown):
    """The writes of a line as marks at their clocks."""
    if not shown.writes:
        return ""
    clocks = [clock for _, clock, _, _ in shown.writes]
    labels = [written(write).partition(" ")[2] for write in shown.writes]
    places = label_places(clocks, [len(label) for label in labels], shown.fault)
    found = (mark(*parts, at == shown.fault) for at, parts in enumerate(zip(clocks, labels, places)))
    lanes = 1 + max(place.lane or 0 for place in places)
    return f'<div class="marks" style="--lanes:{lanes}" aria-hidden="true">{"".join(found)}</div>'


def mark(clock, label, place, is_fault):
    """A write as a mark."""
    kinds = (("fault", is_fault), ("n", place.lane is None), ("e", place.ends))
    names = " ".join(name for name, holds in kinds if holds)
    kind = f' class="{names}"' if names else ""
    return f'<i{kind} style="--c:{clock};--l:{place.lane or 0}">{label}</i>'


def label_places(clocks, lengths, first=None):
    """Where the labels of marks at these clocks stand, by their numbers of characters. A label begins at its mark, or ends there
    near the strip's end; none covers another, nor the line from a mark down to its label. The mark with the index first comes
    first."""
    spans = [label_span(min(clock, CLOCKS), length) for clock, length in zip(clocks, lengths)]
    covered, crossed = [0] * LANES, [0] * LANES  # of each row as bits: the clocks of its labels, and of lines that pass
    places = [Label(None, False)] * len(clocks)
    for at in sorted(range(len(clocks)), key=lambda at: (at != first, *spans[at].turn)):
        clock, bits = 1 << min(clocks[at], CLOCKS), spans[at].bits
        lane = next((lane for lane in range(LANES) if not (covered[lane] & bits or crossed[lane] & bits & ~clock)), LANES)
        if lane < LANES and not any(above & clock for above in covered[:lane]):
            covered[lane] |= bits & ~clock
            crossed[:lane] = [passed | clock for passed in crossed[:lane]]
            places[at] = Label(lane, spans[at].ends)
    return places


class LabelSpan(NamedTuple):
    """The clocks that a label covers, as bits, whether it ends at its mark, and its turn to get a place: those that end there
    from left to right, then the others from right to left."""

    bits: int
    ends: bool
    turn: tuple


def label_span(clock, length):
    """The clocks that a label of so many characters covers, with its mark at this clock."""
    width = round(length * CHARACTER) + 2
    ends = clock + width > CLOCKS
    begin = clock - width if ends else clock
    return LabelSpan((1 << begin + width + 1) - (1 << begin), ends, (0, clock) if ends else (1, -clock))


def written(write):
    """A write in the notation: clock, register and value."""
    _, clock, address, value = write
    return write_text(clock, address, value).strip()


def words(shown):
    """What stands on a line, as text: its writes, the columns that are lit, and the overlaps."""
    said = [("writes", writes_text(shown))]
    if shown.line:
        said.append(("lit", lit_text(shown.line.objects)))
        said.append(("overlap", ", ".join(overlaps(shown.line.objects, range(COLUMNS)))))
    return '<p class="words">' + " ".join(f"<b>{name}</b> {text}" for name, text in said if text) + "</p>"


def writes_text(shown):
    """The writes of a line as text; that at fault is marked."""
    texts = [f"<mark>{written(write)}</mark>" if at == shown.fault else written(write) for at, write in enumerate(shown.writes)]
    return ", ".join(texts) or "none"


@lru_cache(maxsize=4096)
def lit_text(objects):
    """The columns that each object lights on a line, and those that are blanked."""
    found = []
    for name, table in HOLDS.items():
        spans = [span(run.start(), run.end() - 1) for run in re.finditer(b"\1+", objects.translate(table))]
        if spans:
            found.append(f"{name} {', '.join(spans)}")
    return "; ".join(found) or "nothing"


def refusal_note(shown, given):
    """A refusal where it happened: its number, its line, the record at fault with its row, and what it means."""
    number, line, _ = given.ending.refused
    at_fault = ""
    if shown.fault is not None and shown.fault < len(shown.writes):
        write = shown.writes[shown.fault]
        row = "" if write[0] is None else f", row {write[0]} of the source"
        at_fault = f" At fault is record {shown.fault}, {written(write)}{row}."
    gap = given.first + len(given.lines)
    left_out = f"{lines_named(gap, line - 1).capitalize()} not shown here. " if gap < line else ""
    return (
        f'<div class="refusal"><p>{left_out}<strong>Line {line} is refused, number {number}.</strong>{at_fault}</p>'
        f"<p>{escape(given.ending.words)}</p></div>"
    )


def latches(ending):
    """The eight latch bytes, their pairs, and who met; nothing where the tape is too long to be run."""
    cx = latch_bytes(ending)
    if cx is not None:
        said = f"<p>{met_sentence(cx)}</p>\n{latch_table(cx)}"
    elif ending.refused:
        said = "<p>The tape is refused: there are no latches of its end.</p>"
    else:
        return ""
    return f'<section id="latches">\n<h2>Latches</h2>\n{said}\n</section>'


def latch_table(cx):
    """The latch bytes as a table: below each the pairs of its bits 7 and 6."""
    rows = [("byte", "".join(f'<th scope="col">{at}</th>' for at in range(len(cx))))]
    rows.append(("cx", "".join(f"<td>{byte:02X}</td>" for byte in cx)))
    for at, bit in enumerate((7, 6)):
        cells = (latch_cell(byte >> bit & 1, "".join(pairs[at : at + 1])) for byte, pairs in zip(cx, LATCHES))
        rows.append((f"bit {bit}", "".join(cells)))
    return "<table>\n" + "".join(f'<tr><th scope="row">{name}</th>{cells}</tr>\n' for name, cells in rows) + "</table>"


def latch_cell(is_set, pair):
    """A cell with the pair of a latch, marked where they have met; empty for a bit that no pair has."""
    return f'<td class="met">{pair}</td>' if is_set else f"<td>{pair}</td>"
