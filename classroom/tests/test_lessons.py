"""Tests that the lessons and their course are true: the remarks beside lines and repeats, the changes to try, the commands that
show colours; in lessons/README.md the scanline's diagram, the register card, the order of lessons and the answers.
Run: python3 -m unittest classroom.tests.test_lessons"""

import re
import shlex
import subprocess
import tempfile
import unittest
from itertools import product
from pathlib import Path
from typing import NamedTuple

from classroom import programs
from classroom.cards import COUNTS
from classroom.hints import hints
from classroom.lines import BLANK, CLOCKS, COLUMNS, LATCHES, UNSHOWN, Line, lit
from classroom.notation import assemble, parsed
from classroom.registers import MOVABLE, REGISTERS
from classroom.television import pixels_of

PROJECT = Path(__file__).resolve().parent.parent.parent
LESSONS = sorted((PROJECT / "lessons").glob("*.txt"))
COLOURED = [lesson for lesson in LESSONS if "13" <= lesson.name < "16"]  # those that name colours on every line
SIZES, STRETCHED = LESSONS[5], LESSONS[15]  # those that show the sizes of a player
REFLECTED = LESSONS[16]
TRIED = [SIZES, *COLOURED, STRETCHED, REFLECTED]  # those whose changes to try can be read here
WITH_HINTS = ["09-refusal.txt", "11-blank-columns.txt"]  # those that show a late HMOVE on purpose
COURSE = (PROJECT / "lessons/README.md").read_text("utf-8")

BEGINNING = re.compile(r"(line|repeat|end)\b *(\d*) *(?:; (.*))?")
WRITE = re.compile(r" +(\d+) (\w+(?: [$%+-]?\w+)?)")
NUMBERS = r"lines? \d+(?: to \d+)?"
SPAN = r"\d+(?: to \d+)?"
# The columns that a remark says are lit, or blank, or have a colour such as $46; not those that it measures from.
CLAIM = re.compile(rf"(?<!of )columns? ({SPAN}(?:(?:, and|,| and) {SPAN})*)(?: (?:is|are) (blank|\$[0-9A-F]{{2}}))?")
NOT_RUN = re.compile(r"not reached|refused \d+ line")
# A change to try: a write to add (value and clock), to give another value or another clock, or to take away.
CHANGE = re.compile(
    rf"(?:write (?P<register>\w+)(?: (?P<value>\$\w+))?(?: at clock (?P<clock>\d+))? (?:in|of)|take (?P<gone>\w+) of) "
    rf"(?P<place>{NUMBERS})(?: away|, not at clock (?P<old>\d+))?"
)


class Place(NamedTuple):
    """A row of a source that begins a line or a repeat: its index, whether it stands in a repeat, its remark, and the numbers of
    the lines that it stands for; in a repeat a repeat has none."""

    row: int
    inside: bool
    words: str
    lines: list


def places(text):
    """The places of a source, in the order of rows."""
    found, begun, order, repeats = [], [], [], {}  # order: for each line of the tape its row
    for row, content in enumerate(text.splitlines()):
        match = BEGINNING.fullmatch(content)
        word = match[1] if match else ""
        if word in ("line", "repeat"):
            found.append((row, bool(begun), match[3] or ""))
        if word == "line":
            order.append(row)
        elif word == "repeat":
            begun.append((row, int(match[2]), len(order)))
        elif word == "end":
            first_row, times, first = begun.pop()
            order += (times - 1) * order[first:]
            repeats[first_row] = [] if begun else list(range(first, len(order)))
    return [Place(*one, repeats.get(one[0], [at for at, row in enumerate(order) if row == one[0]])) for one in found]


def heading(lines):
    """How the remark of a place outside repeats begins that stands for these lines, or for the one line of a row."""
    return str(lines[0]) if len(lines) == 1 else f"lines {lines[0]} to {lines[-1]}"


def spans(words):
    """The spans of columns that a remark names, each with what it says of them: `lit`, `blank` or their colour."""
    return [(numbers(span), said or "lit") for named, said in CLAIM.findall(words) for span in re.findall(SPAN, named)]


def claims(words):
    """The columns that a remark names: pairs of the column and what it says of it. A colour is said of every column from the
    first to the last of a span, the rest of these two alone."""
    found = []
    for columns, said in spans(words):
        found += [(column, said) for column in (columns if said.startswith("$") else sorted({columns[0], columns[-1]}))]
    return found


def holds(line, column, said):
    """Whether a column of a line is what a remark says of it."""
    if said.startswith("$"):
        return line.colours[column] == int(said[1:], 16)
    return bool(lit(line.objects[column])) if said == "lit" else bool(line.objects[column] & UNSHOWN)


def lines_run(text):
    """The lines that a source's tape runs."""
    return programs.replay(assemble(text)).lines


def each_line():
    """Each line of each lesson: where it stands, the words of a remark that speaks of it, and the line, if it was run."""
    for lesson in LESSONS:
        text = lesson.read_text("utf-8")
        run = lines_run(text)
        for place in places(text):
            words = place.words if place.inside else place.words.partition(": ")[2]
            for number in place.lines:
                yield f"{lesson.name}, line {number}: {words}", words, run[number] if number < len(run) else None


def tries(text):
    """The changes to try at the end of a lesson, each as the change and its results."""
    found = (" ".join(words.replace("\n; ", " ").split()) for words in text.split("\n; Try: ")[1:])
    return [words.partition(": ")[::2] for words in found]


def numbers(words):
    """The numbers that `line 3`, `lines 3 to 8`, `3` or `3 to 8` names."""
    ends = [int(number) for number in re.findall(r"\d+", words)]
    return list(range(ends[0], ends[-1] + 1))


def results(words, changed_lines):
    """The lines that a change's results speak of, each with its claims; `there` speaks of the changed lines."""
    _, *parts = re.split(rf"\b(there|in {NUMBERS}) ", words)
    named = zip(parts[::2], parts[1::2])
    return [(numbers(name) if name != "there" else changed_lines, claims(said)) for name, said in named]


def changed(text, words):
    """A source after the change that these words describe, and the numbers of the changed lines. Fails with ValueError where the
    words describe none."""
    change = CHANGE.fullmatch(words)
    if change is None:
        raise ValueError(f"found {words!r}: expected a change")
    lines = numbers(change["place"])
    rows = text.splitlines()
    (first,) = [place.row for place in places(text) if not place.inside and place.lines == lines]
    begin = next(at for at in range(first, len(rows)) if rows[at].startswith("line")) + 1
    end = next(at for at in range(begin, len(rows) + 1) if at == len(rows) or WRITE.match(rows[at]) is None)
    writes = {int(clock): write for clock, write in (WRITE.match(row).groups() for row in rows[begin:end])}
    rows[begin:end] = [f" {clock} {write}" for clock, write in sorted(changed_writes(writes, change).items())]
    return "".join(f"{row}\n" for row in rows), lines


def changed_writes(writes, change):
    """The writes of a line by their clocks after a change. Fails with ValueError where the register to change is not written
    exactly once, or at another clock than the change says, or a clock to write at is taken."""
    register, value = change["register"] or change["gone"], change["value"]
    clock = int(change["clock"]) if change["clock"] else None
    if clock in writes:
        raise ValueError(f"clock {clock} has a write")
    if value and clock is not None:
        return {**writes, clock: f"{register} {value}"}
    (old,) = [at for at, write in writes.items() if write.split()[0] == register]
    if change["old"] not in (None, str(old)):
        raise ValueError(f"{register} is written at clock {old}")
    rest = {at: write for at, write in writes.items() if at != old}
    if value:
        return {**rest, old: f"{register} {value}"}
    return rest if clock is None else {**rest, clock: writes[old]}


def television_colour(byte):
    """The colour of a colour byte on an American television, by the rows of classroom/palettes.txt."""
    rows = (PROJECT / "classroom/palettes.txt").read_text("ascii").splitlines()
    return bytes.fromhex(next(row.split()[1] for row in rows if row.startswith(f"{byte:02X} ")))


def section(title):
    """The section of the course under a title."""
    return COURSE.partition(f"\n## {title}\n")[2].partition("\n## ")[0]


def cells(text, columns):
    """The rows of the tables of a text that have so many columns, without their heads."""
    rows = [[cell.strip() for cell in row.strip("|").split("|")] for row in re.findall(r"^\|.*\|$", text, re.M)]
    rules = [at for at, row in enumerate(rows) if row[0] == "---"]
    return [row for at, row in enumerate(rows) if len(row) == columns and at not in rules and at + 1 not in rules]


def columns_lit(line, name):
    """The columns in which a line lights an object."""
    return [column for column, byte in enumerate(line.objects) if name in lit(byte)]


def first_lit(line, name):
    """The first column in which a line lights an object, or None."""
    return next(iter(columns_lit(line, name)), None)


class Reading(unittest.TestCase):
    def test_claims(self):
        for words, found in (
            ("column 36, four columns right", [(36, "lit")]),
            ("from columns 37, 53 and 69", [(37, "lit"), (53, "lit"), (69, "lit")]),
            ("columns 44 to 51, and 108 to 115: back", [(44, "lit"), (51, "lit"), (108, "lit"), (115, "lit")]),
            ("columns 0 to 7 are blank; column 42", [(0, "blank"), (7, "blank"), (42, "lit")]),
            ("column 156: seven left of column 3", [(156, "lit")]),
            ("no blank columns", []),
            ("column 40 is $46: red", [(40, "$46")]),
            ("columns 3 to 5, and 9 are $0E, column 7", [(3, "$0E"), (4, "$0E"), (5, "$0E"), (9, "$0E"), (7, "lit")]),
        ):
            self.assertEqual(claims(words), found)

    def test_holds(self):
        line = Line(bytes([0, 4, 64, 33]), bytes([0x84, 0x46, 0, 0xC8]))
        for said, columns in (("lit", [1, 3]), ("blank", [2]), ("$84", [0]), ("$46", [1]), ("$00", [2]), ("$C9", [])):
            self.assertEqual([column for column in range(4) if holds(line, column, said)], columns, said)

    def test_places(self):
        text = "line ; 0\nrepeat 2 ; lines 1 to 8: a\nline ; b\nrepeat 3 ; c\nline\n 0 PF0 $10\nend\nend\nline ; 9: d\n"
        self.assertEqual(
            places(text),
            [
                Place(0, False, "0", [0]),
                Place(1, False, "lines 1 to 8: a", [1, 2, 3, 4, 5, 6, 7, 8]),
                Place(2, True, "b", [1, 5]),
                Place(3, True, "c", []),
                Place(4, True, "", [2, 3, 4, 6, 7, 8]),
                Place(8, False, "9: d", [9]),
            ],
        )

    def test_changes(self):
        first, second = " 0 PF0 $10 ; a\n 9 HMOVE\n", " 0 PF1 $01\n"
        text = f"line ; 0\n{first}repeat 2 ; lines 1 to 2\nline\n{second}end\n; Try: x: there\n; column 3.\n"
        for words, old, new, lines in (
            ("write PF0 $20 in line 0", first, " 0 PF0 $20\n 9 HMOVE\n", [0]),
            ("write PF0 $20 at clock 7 of line 0", first, " 0 PF0 $10\n 7 PF0 $20\n 9 HMOVE\n", [0]),
            ("write PF0 at clock 10 of line 0", first, " 9 HMOVE\n 10 PF0 $10\n", [0]),
            ("write PF0 at clock 10 of line 0, not at clock 0", first, " 9 HMOVE\n 10 PF0 $10\n", [0]),
            ("take HMOVE of line 0 away", first, " 0 PF0 $10\n", [0]),
            ("write PF1 $02 in lines 1 to 2", second, " 0 PF1 $02\n", [1, 2]),
        ):
            self.assertEqual(changed(text, words), (text.replace(old, new), lines), words)
        at_10 = "write PF0 at clock 10 of line 0, not at clock 9"
        for words in ("look", "write PF1 $01 in line 0", "write PF0 at clock 9 of line 0", "write PF1 $01 in line 1", at_10):
            self.assertRaises(ValueError, changed, text, words)
        self.assertEqual(tries(text), [("x", "there column 3.")])
        found = results("there column 3; in lines 4 to 5 column 6 is $0E.", [9])
        self.assertEqual(found, [([9], [(3, "lit")]), ([4, 5], [(6, "$0E")])])


class Remarks(unittest.TestCase):
    def test_every_line_has_its_number(self):
        for lesson in LESSONS:
            text = lesson.read_text("utf-8")
            found = places(text)
            outside = [place for place in found if not place.inside]
            for place in outside:
                self.assertEqual(place.words.partition(":")[0], heading(place.lines), f"{lesson.name}:{place.row + 1}")
            self.assertEqual([number for place in outside for number in place.lines], list(range(len(parsed(text)))), lesson.name)

    def test_columns(self):
        lit_or_blank, coloured = 0, 0
        for where, words, line in each_line():
            for column, said in claims(words):
                self.assertTrue(holds(line, column, said), f"column {column} of {where}")
                lit_or_blank += not said.startswith("$")
                coloured += said.startswith("$")
        self.assertGreater(lit_or_blank, 100)
        self.assertGreater(coloured, 5000)

    def test_every_line_of_the_lessons_with_colours_names_colours(self):
        self.assertEqual(len(COLOURED), 3)
        for lesson in COLOURED:
            for place in places(lesson.read_text("utf-8")):
                if not place.inside:
                    self.assertTrue(any(said.startswith("$") for _, said in claims(place.words)), f"{lesson.name}: {place.words}")

    def test_every_column_that_a_stretched_or_reflected_player_lights_is_named(self):
        for lesson in (STRETCHED, REFLECTED):
            text = lesson.read_text("utf-8")
            for place, line in zip(places(text), lines_run(text)):
                named = [column for columns, _ in spans(place.words) for column in columns]
                self.assertEqual(named, columns_lit(line, "P0"), place.words)

    def test_dark(self):
        dark = [(where, line) for where, words, line in each_line() if words.startswith("dark")]
        for where, line in dark:
            self.assertFalse(any(map(lit, line.objects)), where)
        self.assertGreater(len(dark), 4)

    def test_not_run(self):
        for where, words, line in each_line():
            self.assertEqual(line is None, bool(NOT_RUN.match(words)), where)

    def test_only_late_moves_get_hints(self):
        found = [lesson.name for lesson in LESSONS if hints(parsed(lesson.read_text("utf-8")))]
        self.assertEqual(found, WITH_HINTS)


class Tries(unittest.TestCase):
    def test_results(self):
        for lesson in TRIED:
            text = lesson.read_text("utf-8")
            self.assertGreaterEqual(len(tries(text)), 3, lesson.name)
            before = lines_run(text)
            for words, said in tries(text):
                with self.subTest(lesson=lesson.name, change=words):
                    new, lines = changed(text, words)
                    after = lines_run(new)
                    found = [(number, *claim) for named, some in results(said, lines) for number in named for claim in some]
                    self.assertEqual([claim for claim in found if not holds(after[claim[0]], *claim[1:])], [])
                    new_claims = [claim for claim in found if not holds(before[claim[0]], *claim[1:])]
                    self.assertNotEqual(new_claims, [], "nothing changes")


class Commands(unittest.TestCase):
    def setUp(self):
        folder = tempfile.TemporaryDirectory()
        self.addCleanup(folder.cleanup)
        self.folder = Path(folder.name)

    def written_by(self, command):
        """What a command writes to the file that it names last. The command must say nothing."""
        *words, name = shlex.split(command)
        output = self.folder / name
        done = subprocess.run([*words, output], cwd=PROJECT, capture_output=True, text=True, check=True)
        self.assertEqual((done.stdout, done.stderr), ("", ""))
        return output.read_bytes()

    def test_commands_of_the_course(self):
        commands = re.findall(r"^    (.*)$", section("Look at a lesson"), re.M) + re.findall(r"`(\./glintstool [^`]*)`", COURSE)
        self.assertEqual(len(commands), 5)
        for command in commands:
            words = [self.folder / word if word.startswith("mine.") else word for word in shlex.split(command)]
            done = subprocess.run(words, cwd=PROJECT, capture_output=True, text=True, check=True)
            self.assertEqual(done.stderr, "", command)
        stored = (PROJECT / "lessons/15-landscape.png").read_bytes()
        drawn = (self.folder / "mine.png").read_bytes()
        self.assertTrue(pixels_of(drawn) == pixels_of(stored))  # assertEqual would take minutes to show a difference

    def commands(self, verb):
        """The commands with this verb that the lessons with colours name, each with the lesson's lines."""
        for lesson in COLOURED:
            text = lesson.read_text("utf-8")
            for command in re.findall(rf"^; (\./glintstool {verb} .*)$", text, re.M):
                self.assertIn(f" lessons/{lesson.name} ", command)
                yield command, lines_run(text)

    def test_pictures_have_the_colours_of_the_columns(self):
        found = list(self.commands("picture"))
        self.assertEqual(len(found), 3)
        for command, lines in found:
            rows = pixels_of(self.written_by(command))
            for number, line in enumerate(lines):
                row = rows[(2 * number + 1) * len(rows) // (2 * len(lines))]
                for column, byte in enumerate(line.colours):
                    pixel = (2 * column + 1) * (len(row) // 3) // (2 * COLUMNS)
                    where = f"{command}: line {number}, column {column}"
                    self.assertEqual(row[3 * pixel : 3 * pixel + 3], television_colour(byte), where)

    def test_a_page_has_the_colour_bytes_of_the_columns(self):
        ((command, lines),) = self.commands("page")
        page = self.written_by(command).decode("utf-8")
        shown = []
        for runs in re.findall('data-runs="([0-9A-F]*)"', page):
            shown.append(b"".join(int(length, 16) * bytes.fromhex(byte) for byte, length in re.findall("..(..)(..)", runs)))
        self.assertEqual(shown, [line.colours for line in lines])

    def test_steps_of_a_stretched_player(self):
        text = STRETCHED.read_text("utf-8")
        (command,) = re.findall(r"^; (\./glintstool step .*)$", text, re.M)
        done = subprocess.run(shlex.split(command), cwd=PROJECT, capture_output=True, text=True, check=True)
        heading_row, heads, *rows = done.stdout.partition("\n\n")[0].splitlines()
        number = int(re.fullmatch(rf"lessons/{STRETCHED.name}, line (\d+), P0", heading_row)[1])
        shown = [dict(zip(heads.split(), row.split())) for row in rows]
        self.assertEqual([int(row["column"]) for row in shown if row["lit"] == "lit"], columns_lit(lines_run(text)[number], "P0"))
        self.assertEqual({row["pixel"] for row in shown}, {*"01234567", "-"})

    def test_look_shows_each_colour_as_one_of_its_own(self):
        (lesson,) = [lesson for lesson in COLOURED if "./glintstool look shows the colours" in lesson.read_text("utf-8")]
        command = ["./glintstool", "look", "--colour", "always", lesson]
        done = subprocess.run(command, cwd=PROJECT, capture_output=True, text=True, check=True)
        self.assertEqual(re.sub("\x1b\\[[0-9;]*m", "", done.stdout), lesson.with_suffix(".picture").read_text("utf-8"))
        shown = [styles(row) for row in done.stdout.splitlines() if re.match(" *[0-9]+ \x1b", row)]
        lines = lines_run(lesson.read_text("utf-8"))
        self.assertEqual([len(row) for row in shown], len(lines) * [COLUMNS])
        pairs = {pair for row, line in zip(shown, lines) for pair in zip(row, line.colours)}
        self.assertEqual((len(pairs), len({style for style, _ in pairs})), 2 * (len({colour for _, colour in pairs}),))


def styles(row):
    """The style in which each column of a row is shown: the terminal's sequence before it."""
    found, style = [], None
    for sequence, character in re.findall("\x1b\\[([0-9;]*)m|(.)", row.lstrip(" 0123456789")):
        if character:
            found.append(style)
        else:
            style = sequence
    return found


class Course(unittest.TestCase):
    def test_lessons_in_their_order(self):
        rows = cells(section("The lessons"), 4)
        links = [re.fullmatch(r"\[(\d+) (.+)\]\((.+)\)", row[0]).groups() for row in rows]
        names = [lesson.name for lesson in LESSONS]
        self.assertEqual([name for _, _, name in links], names)
        self.assertEqual([f"{int(number):02}-{words.replace(' ', '-')}.txt" for number, words, _ in links], names)
        self.assertTrue(all(all(row) for row in rows))
        answers = re.findall(r"^(\d+)\. ", section("Answers for the teacher"), re.M)
        self.assertEqual([int(number) for number in answers], list(range(1, len(LESSONS) + 1)))

    def test_answer_13(self):
        (words,) = re.findall(r"^13\. (.*)$", COURSE, re.M)
        named = re.search(r"at clock (\d+), and at clocks (\d+), (\d+) and (\d+)", words)
        clocks = [int(clock) for clock in named.groups()]
        text = "line\n" + "".join(f" {clock} COLUBK {2 * at + 2}\n" for at, clock in enumerate(clocks))
        self.assertEqual(lines_run(text)[0].colours, b"".join(40 * bytes([2 * at + 2]) for at in range(4)))

    def test_answer_14(self):
        self.assertIn("RESP1 at clock 175 of line 0: player 1 stands in columns 112 to 119.", COURSE)
        self.assertIn("On a later line CTRLPF `$04` at clock 0 and CTRLPF `$00` at clock 148", COURSE)
        text = COLOURED[1].read_text("utf-8")
        for change in ("write RESP1 at clock 175 of line 0", "write CTRLPF $00 at clock 148 of line 2"):
            text, _ = changed(text, change)
        self.assertIn("\n 0 CTRLPF $04\n 148 CTRLPF $00\n", text)
        line = lines_run(text)[2]
        for columns, names, colour in ((range(36, 44), ("P0", "PF"), 0xC8), (range(112, 120), ("P1", "PF"), 0x1E)):
            self.assertEqual({(lit(line.objects[column]), line.colours[column]) for column in columns}, {(names, colour)})

    def test_answer_15(self):
        (answer,) = re.findall(r"^15\. RESP0 at clock (\d+) of line 0: .* columns (\d+) to (\d+)\.$", COURSE, re.M)
        clock, first, final = map(int, answer)
        text, _ = changed(COLOURED[2].read_text("utf-8"), f"write RESP0 at clock {clock} of line 0")
        sun = lines_run(text)[40]
        self.assertEqual([column for column, colour in enumerate(sun.colours) if colour == 0x1E], list(range(first, final + 1)))

    def test_answer_16(self):
        (task,) = [row[3] for row in cells(section("The lessons"), 4) if STRETCHED.name in row[0]]
        line, end = map(int, re.fullmatch(r".* NUSIZ0 `\$00` in line (\d+), let the copy end in column (\d+)\.", task).groups())
        (answer,) = re.findall(r"^16\. At clock (\d+) or (\d+)\. ", COURSE, re.M)
        text, found = STRETCHED.read_text("utf-8"), []
        for clock in range(100, 160):
            new, _ = changed(text, f"write NUSIZ0 $00 at clock {clock} of line {line}")
            found += [clock] if columns_lit(lines_run(new)[line], "P0")[-1] == end else []
        self.assertEqual(found, [int(clock) for clock in answer])

    def test_answer_17(self):
        mirrored = programs.card_bytes()[COUNTS:]
        own = [byte for byte, other in enumerate(mirrored) if byte == other]
        (words,) = re.findall(r"^17\. Sixteen: ([^.]*)\.", COURSE, re.M)
        self.assertEqual([int(byte, 16) for byte in re.findall(r"\$([0-9A-F]{2})", words)], own)
        self.assertEqual(len(own), 16)


class PrintedCards(unittest.TestCase):
    def test_rows_of_the_card_in_the_lesson(self):
        rows = re.findall(r"; the card: (.*)$", REFLECTED.read_text("utf-8"), re.M)
        printed = subprocess.run(["./glintstool", "cards"], cwd=PROJECT, capture_output=True, text=True, check=True).stdout
        self.assertEqual([printed.count(row) for row in rows], [1, 1])

    def test_where_they_stand_in_the_program(self):
        text = REFLECTED.read_text("utf-8")
        table, reader = re.findall(r"crates/[\w/]+\.rt", text)
        self.assertIn("const MIRRORED_BYTES: [u8; 256]", (PROJECT / table).read_text("utf-8"))
        self.assertIn("mirrored(graphic)", (PROJECT / reader).read_text("utf-8"))
        linked = re.findall(r"\]\(\.\./(crates/[^)]*)\)", section("Two cards to print"))
        self.assertEqual(linked, ["crates/counter/src/count.rt", table, reader])

    def test_the_bytes_for_a_rom(self):
        (command,) = re.findall(r"`(target/bin/card_bytes [^`]*)`", section("Two cards to print"))
        done = subprocess.run(command, shell=True, cwd=PROJECT, capture_output=True, check=True)
        self.assertEqual(done.stdout, programs.card_bytes()[COUNTS:])


class Scanline(unittest.TestCase):
    def setUp(self):
        self.rows = section("The scanline").splitlines()

    def numbers_in(self, name):
        """The first row of the drawing with this name: the numbers in it, and the marks in the row above or below it."""
        at = next(at for at, row in enumerate(self.rows) if row.startswith(f"    {name} "))
        marks = self.rows[at + 1 if name == "clock" else at - 1]
        return [int(number) for number in re.findall(r"\d+", self.rows[at])], [mark.start() for mark in re.finditer(r"\|", marks)]

    def test_drawn_to_scale(self):
        clocks, marks = self.numbers_in("clock")
        columns, lower = self.numbers_in("column")
        self.assertEqual((clocks[0], clocks[2], clocks[-1]), (0, BLANK, CLOCKS - 1))
        self.assertEqual((columns[0], columns[-1]), (0, COLUMNS - 1))
        self.assertEqual([clock - BLANK for clock in clocks[2:]], columns)
        self.assertEqual([mark - marks[0] for mark in marks], [clock // 4 for clock in clocks])
        self.assertEqual(lower, marks[2:])

    def test_columns_that_hmove_blanks(self):
        clocks, _ = self.numbers_in("clock")
        self.assertIn(f"H  clocks 0 to {clocks[1] - 1}, where HMOVE is written", section("The scanline"))
        self.assertIn(f"#  columns 0 to {clocks[3] - BLANK - 1}, which an HMOVE", section("The scanline"))
        lines = lines_run("line\n" + "".join(f"line\n {clock} HMOVE\n" for clock in range(clocks[1])))
        blank = [[column for column, byte in enumerate(line.objects) if byte & UNSHOWN] for line in lines]
        self.assertEqual(blank, [[], *(clocks[1] * [list(range(clocks[3] - BLANK))])])

    def test_strobe_drawn(self):
        at = next(at for at, row in enumerate(self.rows) if row.startswith("    column  32"))
        self.assertIn("A strobe at clock 100, which is column 32:", self.rows[at - 2])
        for row, names in zip(self.rows[at + 1 : at + 3], (("RESM0", "RESM1", "RESBL"), ("RESP0", "RESP1"))):
            drawn = re.match(r" +S[ .]+([MP]) ", row)
            column = int(self.rows[at][drawn.end(1) - 2 : drawn.end(1)])
            self.assertEqual(tuple(row[drawn.end() :].split()), names)
            for name in names:
                self.assertEqual(self.columns_after(name, 100)[1], column, name)

    def test_where_strobes_land(self):
        found = []
        for names, right, on, in_blank in cells(section("The scanline"), 4):
            for name in names.split(", "):
                found.append(name)
                for clock in (68, 100, 150, 0, 30, 67):
                    column = clock - BLANK + int(right.split()[0]) if clock >= BLANK else int(in_blank.split()[1])
                    first = column if on == "the same scanline" else None
                    self.assertEqual(self.columns_after(name, clock), [first, column], f"{name} at {clock}")
        self.assertEqual(sorted(found), sorted(movable.strobe for movable in MOVABLE.values()))

    def test_where_strobes_put_a_stretched_player(self):
        words = r"A player of double or four times the size .*: (\d+) further right .* strobed in the blank, in column (\d+) "
        right, in_blank = map(int, re.search(words, section("The scanline")).groups())
        for player, size, clock in product("01", (5, 7), (68, 100, 150, 0, 30, 67)):
            column = clock - BLANK + right if clock >= BLANK else in_blank
            write = f" 1 NUSIZ{player} {size}\n"
            self.assertEqual(self.columns_after(f"RESP{player}", clock, write), [None, column], (player, size, clock))

    def columns_after(self, strobe, clock, write=""):
        """The first column that the object of a strobe lights on the line of the strobe, and on the next, after a write at clock
        1 of the line before."""
        ((name, movable),) = [(name, movable) for name, movable in MOVABLE.items() if movable.strobe == strobe]
        # It is strobed on the line before too, so that no earlier start lights it on the line of the strobe.
        lines = lines_run(f"line\n 0 {movable.shown} $FF\n{write} 200 {strobe}\nline\n {clock} {strobe}\nline\n")
        return [first_lit(line, name) for line in lines[1:]]


class Card(unittest.TestCase):
    def setUp(self):
        self.text = section("The register card")

    def test_registers_with_address_and_bits(self):
        found = {}
        for names, addresses, bits, words in cells(self.text, 4):
            self.assertEqual(len(names.split()), len(addresses.split()), names)
            self.assertTrue(words)
            for name, address in zip(names.split(), addresses.split()):
                self.assertNotIn(name, found)
                found[name] = (address, bits == "strobe", 0 if bits == "strobe" else mask_of(bits))
        self.assertEqual(found, {name: (f"${address:02X}", strobe, mask) for name, (address, strobe, mask) in REGISTERS.items()})

    def test_copies(self):
        drawn = re.findall(r"^    ([0-7]) ([X.]+) +(.*)$", self.text, re.M)
        self.assertEqual([number for number, _, _ in drawn], list("01234567"))
        for number, copies, words in drawn:
            lines = lines_run(f"line\n 0 GRP0 $FF\n 1 ENAM0 $02\n 2 NUSIZ0 {number}\n 75 RESP0\n 76 RESM0\nline\n")
            self.assertEqual(copies_shown(lines[1], "P0"), copies, number)
            self.assertEqual(copies_shown(lines[1], "M0"), copies if "XX" not in copies else "X", number)
            self.assertEqual(first_lit(lines[1], "P0"), 13 if "one column further right" in words else 12, number)

    def test_latches(self):
        words = self.text.partition("The `cx` row")[2]
        self.assertEqual(re.findall(r"\b[A-Z]+\d?-[A-Z]+\d?\b", words), [pair for pairs in LATCHES for pair in pairs])


def mask_of(bits):
    """The mask of bits as the card names them, such as `0-2, 4-5`."""
    spans = [[int(bit) for bit in span.split("-")] for span in bits.split(", ")]
    return sum(1 << bit for span in spans for bit in range(span[0], span[-1] + 1))


def copies_shown(line, name):
    """The copies of an object in a line, a letter for eight columns from the first that it lights to the last."""
    columns = columns_lit(line, name)
    lit_parts = {(column - columns[0]) // 8 for column in columns}
    return "".join("X" if part in lit_parts else "." for part in range(max(lit_parts) + 1))


if __name__ == "__main__":
    unittest.main()
