"""Tests of the page of a tape: its contents without a browser. Needs target/bin/line_bytes and target/bin/listing.
Run: python3 -m unittest classroom.tests.test_page. tools/try_page tries the page in a browser."""

import base64
import json
import random
import re
import subprocess
import sys
import time
import unittest
import zlib
from html.parser import HTMLParser
from itertools import permutations
from pathlib import Path

sys.dont_write_bytecode = True

from classroom.lines import Ending, ending, lines_of
from classroom.notation import assemble, parsed
from classroom.page import FOLDER, INKS, LANES, PageInput, label_places, label_span, page
from classroom.registers import REGISTERS
from classroom.tape_forms import readable
from classroom.television import NTSC, PAL

PROJECT = Path(__file__).resolve().parent.parent.parent
REFUSALS = (PROJECT / "docs/REFUSALS.md").read_text("utf-8")
PALETTES = [row.split() for row in (PROJECT / "classroom/palettes.txt").read_text("utf-8").splitlines() if row[:1] != "#"]
VOID = {"meta", "link", "img"}

# Colours, an overlap of player 0 and the playfield, columns blanked by HMOVE, a strobe with a value, a line without writes.
SOURCE = (
    "line\n 0 COLUBK $84\n 1 COLUPF $C8\n 2 COLUP0 $46\n 4 GRP0 $FF\n 99 RESP0\nline\n 0 PF1 $0E\n 227 HMCLR $05\n"
    "line\n 9 HMOVE\n 148 COLUBK $0F\nline\n"
)
NO_COLOURS = "line\n 0 ENAM0 $02\n 30 RESM0\nline\nline\n 0 HMM0 $70\n 9 HMOVE\nline\n"
REFUSED_6 = "line\n 0 COLUBK $84\n\nline\n 0 HMM0 $10\n 20 HMOVE\n 20 HMCLR\nline\n 0 $2D $00\nline\n"
WRONG = {
    5: ("line\nline\n 3 GRP0 $FF\n 228 GRP1 $FF\n", 1, 1, "228 GRP1 $FF", 4),
    6: (REFUSED_6, 1, 2, "20 HMCLR", 7),
    7: ("line\n 5 $2D $07\n", 0, 0, "5 $2D $07", 2),
}
DAMAGED = {4: b"\1\0\0\0\2", 8: b"\2\0\0", 9: b"\1\0\0\0\3\0\4"}


class Element:
    """An element of a page: its tag, its attributes, what stands in it, and its text with that of the elements in it."""

    def __init__(self, tag, attributes):
        self.tag = tag
        self.attributes = dict(attributes)
        self.children = []
        self.own = []

    @property
    def text(self):
        """The text in the element, in its order."""
        return "".join(part if isinstance(part, str) else part.text for part in self.own)

    def all(self, tag=None, kind=None):
        """The elements in this one, in their order, that have a tag and a class."""
        for child in self.children:
            if tag in (None, child.tag) and (kind is None or kind in child.attributes.get("class", "").split()):
                yield child
            yield from child.all(tag, kind)

    def one(self, tag=None, kind=None):
        """The only element in this one that has a tag and a class. Fails with ValueError where there is another number."""
        (found,) = self.all(tag, kind)
        return found

    def style(self, name):
        """The value of a property in the element's style."""
        return dict(part.split(":") for part in self.attributes["style"].split(";"))[name]


class Reader(HTMLParser):
    """Reads a page into elements. Fails with ValueError where a tag is closed that is not open."""

    def __init__(self, text):
        super().__init__()
        self.top = Element("", ())
        self.open = [self.top]
        self.feed(text)
        self.close()

    def handle_starttag(self, tag, attrs):
        """Takes an element's beginning."""
        element = Element(tag, attrs)
        self.open[-1].children.append(element)
        self.open[-1].own.append(element)
        if tag not in VOID:
            self.open.append(element)

    def handle_startendtag(self, tag, attrs):
        """Takes an element that has nothing in it."""
        self.handle_starttag(tag, attrs)
        if tag not in VOID:
            self.open.pop()

    def handle_endtag(self, tag):
        """Takes an element's end."""
        if self.open.pop().tag != tag:
            raise ValueError(f"found </{tag}> at {self.getpos()}: expected the end of another element")

    def handle_data(self, data):
        """Takes a text."""
        self.open[-1].own.append(data)


def read(text):
    """The elements of a page. Fails with ValueError where its tags are not balanced."""
    reader = Reader(text)
    if reader.open != [reader.top]:
        raise ValueError(f"<{reader.open[-1].tag}> is not closed")
    return reader.top


def named(top, name):
    """The only element with an id. Fails with ValueError where there is another number."""
    (found,) = (element for element in top.all() if element.attributes.get("id") == name)
    return found


def answer(program, tape):
    """What a proved program writes for a tape."""
    return subprocess.run([PROJECT / "target/bin" / program], input=tape, stdout=subprocess.PIPE, check=True).stdout


def given_tape(tape, writes=None, standard=NTSC):
    """What the page of a tape is given."""
    if writes is None:
        writes = [[(None, *write) for write in line] for line in readable(tape)]
    last = answer("listing", tape).decode().splitlines()[-1]
    lines = lines_of(answer("line_bytes", tape))
    return PageInput("mine.txt", lines, writes, ending(last, REFUSALS), standard, 0)


def given(text, standard=NTSC):
    """What the page of a source is given."""
    return given_tape(assemble(text), parsed(text), standard)


def bytes_of(runs):
    """The object bytes and the colour bytes that runs of a page stand for."""
    triples = [bytes.fromhex(runs[at : at + 6]) for at in range(0, len(runs), 6)]
    return tuple(b"".join(bytes([triple[which]]) * triple[2] for triple in triples) for which in range(2))


def pixels(element):
    """The rows of an image that stands in a page, each a list of RRGGBB. Fails with ValueError where its rows are filtered."""
    data = base64.b64decode(element.attributes["src"][len("data:image/png;base64,") :], validate=True)
    parts, place = {}, 8
    while place < len(data):
        length = int.from_bytes(data[place : place + 4], "big")
        name = data[place + 4 : place + 8]
        parts[name] = parts.get(name, b"") + data[place + 8 : place + 8 + length]
        place += length + 12
    width, height = (int.from_bytes(parts[b"IHDR"][at : at + 4], "big") for at in (0, 4))
    raw = zlib.decompress(parts[b"IDAT"])
    rows = [raw[at : at + 1 + 3 * width] for at in range(0, len(raw), 1 + 3 * width)]
    if len(rows) != height or any(row[0] for row in rows):
        raise ValueError("expected rows without a filter")
    return [[row[at : at + 3].hex().upper() for at in range(1, len(row), 3)] for row in rows]


def on_television(line, palette):
    """The colours of a line's columns on the television."""
    return ["000000" if byte & 0xC0 else palette[colour >> 1] for byte, colour in zip(line.objects, line.colours)]


def in_inks(line):
    """The colours of a line's columns in the objects' view."""
    names = ("P0", "P1", "M0", "M1", "BL", "PF")
    colours = []
    for byte in line.objects:
        lit = [name for bit, name in enumerate(names) if byte >> bit & 1]
        name = "blanked" if byte & 0xC0 else "nothing" if not lit else lit[0] if len(lit) == 1 else "overlap"
        colours.append(INKS[name])
    return colours


def many(count, writes, seed=1):
    """A source of so many lines with so many writes each, chosen by chance."""
    chance = random.Random(seed)
    rows = []
    for _ in range(count):
        rows.append("line")
        clocks = sorted(chance.sample(range(228), writes))
        rows += [f"{clock} {chance.choice(list(REGISTERS))} {chance.randrange(256)}" for clock in clocks]
    return "\n".join(rows)


def lessons():
    """The name and the text of each lesson."""
    return [(path.name, path.read_text("utf-8")) for path in sorted((PROJECT / "lessons").glob("*.txt"))]


class Whole(unittest.TestCase):
    def test_every_lesson_is_one_balanced_file(self):
        for name, text in lessons():
            with self.subTest(name):
                top = read(page(given(text)))
                self.assertEqual(top.one("html").attributes["lang"], "en")
                self.assertEqual(top.one("title").text, "mine.txt")
                names = [element.attributes["id"] for element in top.all() if "id" in element.attributes]
                self.assertEqual(len(names), len(set(names)))
                self.assertIn("picture", names)

    def test_nothing_is_loaded(self):
        for text in (SOURCE, REFUSED_6):
            whole = page(given(text))
            for element in read(whole).all():
                self.assertNotIn("srcset", element.attributes)
                self.assertTrue(element.attributes.get("src", "data:").startswith("data:"))
                self.assertRegex(element.attributes.get("href", "#"), "^(#|data:)")
                self.assertNotIn(element.tag, ("iframe", "object", "embed", "form"))
            self.assertNotRegex(whole, r"https?:|url\(|@import|//[a-z]+\.|fetch\(|XMLHttp|import\(")
            self.assertIn("default-src 'none'", whole)

    def test_links_lead_somewhere(self):
        top = read(page(given(REFUSED_6)))
        names = {element.attributes.get("id") for element in top.all()}
        links = [element.attributes["href"] for element in top.all("a")]
        self.assertEqual(links, ["#line-1"])
        self.assertIn("line-1", names)

    def test_parts_fit_into_their_elements(self):
        self.assertNotIn("</", (FOLDER / "page.css").read_text("utf-8"))
        self.assertNotIn("</", (FOLDER / "page.js").read_text("utf-8"))

    def test_names_are_escaped(self):
        name = "<b>&\"'</title>$view.txt"
        made = page(given(SOURCE)._replace(title=name, ending=Ending("tape too long", "<i>&", ())))
        top = read(made)
        self.assertEqual(top.one("title").text, name)
        self.assertEqual(top.one("h1").text, name)
        self.assertIn("Tape too long. <i>&", top.one("header").text)

    def test_words_of_a_refusal_are_escaped(self):
        top = read(page(given(REFUSED_6)._replace(ending=Ending("refused 6 line 1 record 2", "<b>a & b", (6, 1, 2)))))
        self.assertIn("<b>a & b", top.one("div", "refusal").text)


class Contrast(unittest.TestCase):
    def test_every_text_stands_out(self):
        css = (FOLDER / "page.css").read_text("utf-8")
        colours = dict(re.findall(r"--(ink|soft|fault|focus|tint): #([0-9a-f]{6});", css))
        colours.update(paper="ffffff", refusal="fdecee", here="ffe88a")
        self.assertIn("#fdecee", css)
        self.assertIn("#ffe88a", css)
        pairs = ["ink paper", "ink tint", "ink refusal", "ink here", "soft paper", "soft tint", "fault paper", "fault refusal"]
        for pair in [*pairs, "fault here", "focus paper", "paper ink"]:
            with self.subTest(pair):
                bright, dark = sorted((luminance(colours[name]) for name in pair.split()), reverse=True)
                self.assertGreaterEqual((bright + 0.05) / (dark + 0.05), 4.5)


def luminance(colour):
    """The relative luminance of a colour RRGGBB, by the definition of contrast in WCAG 2."""
    parts = [int(colour[at : at + 2], 16) / 255 for at in (0, 2, 4)]
    linear = [part / 12.92 if part <= 0.04045 else ((part + 0.055) / 1.055) ** 2.4 for part in parts]
    return sum(weight * part for weight, part in zip((0.2126, 0.7152, 0.0722), linear))


class Writes(unittest.TestCase):
    def test_every_write_is_a_mark_at_its_clock_and_a_text(self):
        sources = [*(text for _, text in lessons()), SOURCE, *(wrong[0] for wrong in WRONG.values()), many(5, 60)]
        for text in sources:
            top = read(page(given(text)))
            lines = list(top.all("section", "line"))
            self.assertEqual([line.attributes["id"] for line in lines], [f"line-{at}" for at in range(len(parsed(text)))])
            for line, writes in zip(lines, parsed(text)):
                marks = [(int(mark.style("--c")), mark.text) for marks in line.all("div", "marks") for mark in marks.all("i")]
                self.assertEqual(marks, [(clock, self.written(address, value)) for _, clock, address, value in writes])
                texts = ", ".join(f"{clock} {self.written(address, value)}" for _, clock, address, value in writes)
                self.assertTrue(line.one("p", "words").text.startswith(f"writes {texts or 'none'}"))

    @staticmethod
    def written(address, value):
        """A write without its clock."""
        names = [name for name, register in REGISTERS.items() if register.address == address]
        if names and REGISTERS[names[0]].strobe and value == 0:
            return names[0]
        return f"{names[0] if names else f'${address:02X}'} ${value:02X}"

    def test_a_mark_stands_at_its_clock_of_228(self):
        css = (FOLDER / "page.css").read_text("utf-8")
        self.assertEqual(rule(css, ".marks i")["left"], "calc(min(var(--c), 228) * 100% / 228)")
        self.assertEqual(rule(css, ".scale i")["left"], "calc(var(--c) * 100% / 228)")
        self.assertEqual(rule(css, ".screen .scale i")["left"], "calc(var(--c) * 100% / 160)")
        self.assertEqual(rule(css, ".strip img")["left"], "calc(68 * 100% / 228)")
        self.assertEqual(rule(css, ".strip img")["width"], "calc(160 * 100% / 228)")

    def test_the_rulers(self):
        top = read(page(given(SOURCE)))
        scales = [[(int(mark.style("--c")), mark.text) for mark in scale.all("i")] for scale in top.all("div", "scale")]
        picture, clocks, columns = scales
        self.assertEqual(picture, [(at, str(at)) for at in range(0, 160, 10)])
        self.assertEqual(clocks, [(at, str(at)) for at in range(0, 228, 10)])
        self.assertEqual(columns, [(68 + at, str(at)) for at in range(0, 160, 10)])


def rule(css, selector):
    """The properties that the rules of a style sheet set for a selector, outside of paper."""
    bodies = re.findall(rf"^{re.escape(selector)}(?:,\n[^{{]*)? {{\n(.*?)^}}", css, re.M | re.S)
    return dict(re.findall(r"^  ([a-z-]+): (.*);$", "".join(bodies), re.M))


class Labels(unittest.TestCase):
    def assert_apart(self, clocks, lengths):
        """Fails where a label covers another in its row, or a line that leads to a deeper row."""
        places = label_places(clocks, lengths)
        spans = [label_span(*pair).bits for pair in zip(clocks, lengths)]
        shown = [(clock, bits, place.lane) for clock, bits, place in zip(clocks, spans, places) if place.lane is not None]
        for (clock, bits, lane), (other_clock, other_bits, other_lane) in permutations(shown, 2):
            if lane == other_lane:
                self.assertFalse(bits & other_bits & ~(1 << clock) & ~(1 << other_clock), (clock, other_clock))
            elif lane < other_lane:
                self.assertFalse(bits >> other_clock & 1, (clock, other_clock))
        return places

    def test_labels_are_apart(self):
        chance = random.Random(2)
        for count in (2, 10, 40, 228):
            clocks = sorted(chance.sample(range(228), count))
            places = self.assert_apart(clocks, [chance.randrange(5, 11) for _ in clocks])
            self.assertTrue(any(place.lane is not None for place in places))

    def test_close_writes_are_stairs(self):
        self.assertEqual([place.lane for place in self.assert_apart([0, 1, 2], [9, 9, 9])], [2, 1, 0])

    def test_labels_at_the_end_stand_left_of_their_marks(self):
        places = self.assert_apart([100, 225, 226, 227], [5, 9, 9, 9])
        self.assertEqual([tuple(place) for place in places], [(0, False), (0, True), (1, True), (2, True)])

    def test_as_many_rows_as_there_are(self):
        lanes = [place.lane for place in label_places(list(range(20)), [9] * 20)]
        self.assertEqual(max(lane for lane in lanes if lane is not None), LANES - 1)
        self.assertIn(None, lanes)

    def test_the_record_at_fault_has_a_label(self):
        for fault in range(20):
            self.assertIsNotNone(label_places([7] * 20, [9] * 20, fault)[fault].lane)


class Bytes(unittest.TestCase):
    def test_pointing_has_the_bytes_of_the_program(self):
        for text in (SOURCE, NO_COLOURS, many(40, 30), *(text for _, text in lessons())):
            lines = lines_of(answer("line_bytes", assemble(text)))
            top = read(page(given(text)))
            run = [line for line in top.all("section", "line") if "data-runs" in line.attributes]
            self.assertEqual([bytes_of(line.attributes["data-runs"]) for line in run], [tuple(line) for line in lines])

    def test_pictures_have_the_colours_of_the_palette(self):
        for standard in (NTSC, PAL):
            for text in (SOURCE, many(40, 30)):
                all_given = given(text, standard)
                top = read(page(all_given))
                images = {kind: [pixels(image) for image in top.all("img", kind)] for kind in ("tv", "ob")}
                television = [on_television(line, [row[standard.place] for row in PALETTES]) for line in all_given.lines]
                inks = [in_inks(line) for line in all_given.lines]
                self.assertEqual(images["tv"], [television, *([row] for row in television)])
                self.assertEqual(images["ob"], [inks, *([row] for row in inks)])

    def test_pointing_has_the_colours_of_the_palette(self):
        for standard in (NTSC, PAL):
            data = re.search('<script type="application/json" id="given">(.*?)</script>', page(given(SOURCE, standard)))
            pointing = json.loads(data[1])
            self.assertEqual(pointing["palette"], [row[standard.place] for row in PALETTES])
            self.assertEqual((pointing["black"], pointing["unshown"], pointing["blank"]), ("000000", 0xC0, 68))

    def test_a_blanked_column_is_black_and_background_0_is_not_in_pal(self):
        top = read(page(given(NO_COLOURS, PAL)))
        rows = pixels(next(top.all("img", "tv")))
        self.assertEqual(rows[2][:9], ["000000"] * 8 + ["0B0B0B"])

    def test_the_shape_of_a_column(self):
        for standard, width in ((NTSC, 12 / 7), (PAL, 2.08)):
            wide, high = named(read(page(given(SOURCE, standard))), "picture").style("aspect-ratio").split("/")
            self.assertAlmostEqual(float(wide) / 160, width, 2)
            self.assertEqual(high, "4")

    def test_the_inks_differ(self):
        self.assertEqual(len(set(INKS.values())), 9)

    def test_the_legend_has_the_colours_of_the_lines(self):
        television = read(page(given(SOURCE))).one("ul", "tv")
        self.assertEqual([entry.text.strip() for entry in television.all("li")], ["$0E", "$46", "$84", "$C8", "blanked"])
        swatches = [entry.one("span").style("background") for entry in television.all("li")]
        self.assertEqual(swatches, ["#ECECEC", "#C84848", "#2D32B8", "#5CBA5C", "#000000"])


class Words(unittest.TestCase):
    def words(self, text):
        """What the page says of each line."""
        return [line.one("p", "words").text for line in read(page(given(text))).all("section", "line")]

    def test_lit_columns_and_overlaps(self):
        words = self.words(SOURCE)
        self.assertTrue(words[0].endswith("lit nothing"), words[0])
        self.assertTrue(words[1].endswith("lit P0 36-43; PF 32-43, 112-123 overlap 36-43 P0 PF"), words[1])
        self.assertTrue(words[2].endswith("lit P0 36-43; PF 32-43, 112-123; blanked 0-7 overlap 36-43 P0 PF"), words[2])

    def test_latches(self):
        latches = named(read(page(given(SOURCE))), "latches")
        rows = [[cell.text for cell in row.children] for row in latches.all("tr")]
        self.assertEqual(rows[0], ["byte", *"01234567"])
        self.assertEqual(rows[1], "cx 00 00 80 00 00 00 00 00".split())
        self.assertEqual(rows[2], "bit 7|M0-P1|M1-P0|P0-PF|P1-PF|M0-PF|M1-PF|BL-PF|P0-P1".split("|"))
        self.assertEqual(rows[3], "bit 6|M0-P0|M1-P1|P0-BL|P1-BL|M0-BL|M1-BL||M0-M1".split("|"))
        self.assertEqual([cell.text for cell in latches.all("td", "met")], ["P0-PF"])
        self.assertIn("By the end of the tape these have met: player 0 and playfield.", latches.text)

    def test_each_latch_by_itself(self):
        for byte in range(8):
            for bit in (7, 6):
                cx = [f"{1 << bit if at == byte else 0:02X}" for at in range(8)]
                made = given(SOURCE)._replace(ending=ending(" ".join(["cx", *cx]), REFUSALS))
                cells = [cell.text for cell in read(page(made)).all("td", "met")]
                pair = made.ending.words.split()[-1]
                self.assertEqual(cells, [pair if pair != "none" else ""])

    def test_nobody_met(self):
        self.assertIn("By the end of the tape no two objects have met.", read(page(given(NO_COLOURS))).text)

    def test_the_opening_view(self):
        note = "every colour byte is $00"
        top = read(page(given(SOURCE)))
        self.assertEqual((top.one("body").attributes["class"], note in top.text), ("television", False))
        top = read(page(given(NO_COLOURS)))
        self.assertEqual((top.one("body").attributes["class"], note in top.text), ("objects", True))

    def test_how_many_lines(self):
        self.assertIn("4 lines were run. PAL colours.", read(page(given(SOURCE, PAL))).text)
        self.assertIn("1 line was run. NTSC colours.", read(page(given("line\n"))).text)


class Chosen(unittest.TestCase):
    def test_lines_keep_their_numbers_and_writes(self):
        whole = given(SOURCE)
        top = read(page(whole._replace(lines=whole.lines[1:3], first=1)))
        lines = list(top.all("section", "line"))
        self.assertEqual([line.attributes["id"] for line in lines], ["line-1", "line-2"])
        self.assertEqual([line.one("h3").text for line in lines], ["1", "2"])
        self.assertIn("writes 9 HMOVE, 148 COLUBK $0F", lines[1].text)
        self.assertEqual(bytes_of(lines[1].attributes["data-runs"]), tuple(whole.lines[2]))
        self.assertIn("4 lines were run, lines 1-2 are shown.", top.text)

    def test_numbers_beside_the_picture(self):
        whole = given("line\n" * 31)
        top = read(page(whole._replace(lines=whole.lines[7:25], first=7)))
        numbers = [(mark.style("--n"), mark.text) for mark in top.one("div", "numbers").all("i")]
        self.assertEqual(numbers, [("3", "10"), ("13", "20")])

    def test_a_refusal_after_lines_that_are_left_out(self):
        whole = given("line\n" * 5 + "line\n 3 $2D 0\nline\n")
        top = read(page(whole._replace(lines=whole.lines[1:3], first=1)))
        self.assertEqual([line.attributes["id"] for line in top.all("section", "line")], ["line-1", "line-2", "line-5"])
        self.assertIn("Lines 3-4 are not shown here.", top.one("div", "refusal").text)


class Refusals(unittest.TestCase):
    def test_at_its_line_with_its_record_and_meaning(self):
        for number, (text, line, record, write, row) in WRONG.items():
            with self.subTest(number):
                made = given(text)
                self.assertEqual(made.ending.refused, (number, line, record))
                top = read(page(made))
                refused = top.one("section", "refused")
                self.assertEqual(refused.attributes["id"], f"line-{line}")
                self.assertNotIn("data-runs", refused.attributes)
                self.assertEqual(list(refused.all("img")), [])
                note = refused.one("div", "refusal").text
                self.assertTrue(note.startswith(f"Line {line} is refused, number {number}. "))
                self.assertIn(f"At fault is record {record}, {write}, row {row} of the source.", note)
                self.assertIn(made.ending.words, note)
                self.assertEqual(refused.one("mark").text, write)
                self.assertEqual(list(refused.all("i")).index(refused.one("i", "fault")), record)
                self.assertEqual([line.attributes["id"] for line in top.all("section", "unrun")][0], f"line-{line}")
                self.assertIn("The tape is refused", top.text)

    def test_lines_after_it_are_not_run(self):
        top = read(page(given(REFUSED_6)))
        self.assertEqual([line.attributes["id"] for line in top.all("section", "unrun")], ["line-1", "line-2", "line-3"])
        self.assertEqual(len(list(top.all("section", "refused"))), 1)

    def test_a_tape_has_no_rows(self):
        note = read(page(given_tape(assemble(REFUSED_6)))).one("div", "refusal").text
        self.assertIn("At fault is record 2, 20 HMCLR.", note)

    def test_no_record_is_at_fault(self):
        for number, tape in DAMAGED.items():
            with self.subTest(number):
                made = given_tape(tape)
                self.assertEqual(made.ending.refused[0], number)
                top = read(page(made))
                refused = top.one("section", "refused")
                self.assertEqual(refused.attributes["id"], f"line-{made.ending.refused[1]}")
                expected = f"Line {made.ending.refused[1]} is refused, number {number}.{made.ending.words}"
                self.assertEqual(refused.one("div", "refusal").text, expected)
                self.assertEqual([*top.all(kind="fault"), *refused.all("p", "words")], [])

    def test_no_write_is_at_fault_for_the_tape(self):
        for number in DAMAGED:
            words = "What it means."
            made = given(SOURCE)
            made = made._replace(lines=made.lines[:1], ending=Ending(f"refused {number} line 1 record 0", words, (number, 1, 0)))
            refused = read(page(made)).one("section", "refused")
            self.assertEqual(refused.one("div", "refusal").text, f"Line 1 is refused, number {number}.{words}")
            self.assertEqual([*refused.all("mark"), *refused.all(kind="fault")], [])

    def test_nothing_was_run(self):
        top = read(page(given(WRONG[7][0])))
        self.assertIn("No line was run.", top.text)
        self.assertEqual(list(top.all("img")), [])
        self.assertEqual(top.one("body").attributes["class"], "objects plain")

    def test_a_tape_without_lines(self):
        top = read(page(given("; nothing\n")))
        self.assertIn("No line was run: the tape has none. In a source, each scanline begins with 'line'.", top.text)
        names = [element.attributes["id"] for element in top.one("main").all() if "id" in element.attributes]
        self.assertEqual(names, ["latches"])

    def test_a_tape_that_is_too_long(self):
        tape = b"\1" + b"\0\0" * 32768
        made = given_tape(tape)
        self.assertEqual(made.ending.last, "tape too long")
        top = read(page(made))
        self.assertIn("No line was run.", top.text)
        self.assertIn("Tape too long. A tape has at most 65,536 bytes.", top.text)
        self.assertEqual(list(top.all("section", "line")), [])


class Size(unittest.TestCase):
    def test_a_full_picture_is_under_two_megabytes(self):
        made = given(many(262, 82))
        self.assertEqual(len(made.lines), 262)
        self.assertLess(len(page(made).encode()), 2_000_000)

    def test_thousands_of_lines(self):
        made = given_tape(b"\1" + b"\0\0" * 6000)
        begun = time.perf_counter()
        text = page(made)
        self.assertLess(time.perf_counter() - begun, 10)
        self.assertEqual(text.count(' data-runs="'), 6000)
        self.assertEqual(named(read(text), "beam").attributes["class"], "long")
        self.assertLess(len(text), 6000 * 700)


if __name__ == "__main__":
    unittest.main()
