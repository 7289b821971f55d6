"""Tests of ./glintstool as a whole: help and its examples, every verb, every mistake, exit statuses, and terminals.
Needs the programs in target/bin. Run: python3 -m unittest classroom.tests.test_command_line"""

import contextlib
import fcntl
import io
import os
import pty
import re
import struct
import subprocess
import sys
import tempfile
import termios
import unittest
from pathlib import Path

sys.dont_write_bytecode = True

from classroom import programs
from classroom.cards import pages_of
from classroom.lines import ending, lines_of, meaning
from classroom.main import EXAMPLES, main
from classroom.notation import assemble
from classroom.television import NTSC, PAL, colour_of, picture_rows, pixels_of
from classroom.tests.cases import NO_LATCHES, RULER, SHOWN, TENS, read_terminal

PROJECT = Path(__file__).resolve().parent.parent.parent
COMMAND = [sys.executable, PROJECT / "glintstool"]
BUILT = ("card_bytes", "clock_bytes", "line_bytes", "listing")
REFUSALS = (PROJECT / "docs/REFUSALS.md").read_text("utf-8")
LESSONS = sorted((PROJECT / "lessons").glob("*.txt"))
VERBS = ("look", "list", "picture", "page", "step", "assemble", "disassemble")  # those that read a file
ALL_VERBS = (*VERBS, "cards")
SHOWING = {"look": [], "list": [], "picture": ["-o", "out"], "page": ["-o", "out"], "step": ["--line", "0"]}
STATUS = "exit status: 0; 1 where a file is wrong, no line was run, or the chip refuses the tape; 2 for a wrong command line"
CODES = re.compile("\x1b\\[[0-9;]*m")

# The case that the chip's description prints, as a source and as a tape, its listing, and its picture on 80 columns.
SOURCE = "line\n  0 ENAM0 $02\n 30 RESM0\nline\nline\n  0 HMM0 $70\n  9 HMOVE\nline\n"
TAPE = bytes.fromhex("01 0006 001D02 1E1200 0000 0006 002270 092A00 0000")
LISTING = f"line P0 P1 M0 M1 BL PF\n0 - - - - - -\n1 - - 3 - - -\n2 - - 156 - - -\n3 - - 156 - - -\n{NO_LATCHES}\n"
ABOVE_80 = [
    " " * 10 + TENS[10:80],
    "0123456789" * 8,
    *("line 0", "." * 80, "line 1", "...M" + "." * 76, "line 2", "--------" + "." * 72, "line 3", "." * 80, ""),
    " " * 20 + "1" * 60,
    TENS[80:] + TENS[:60],
    "0123456789" * 8,
    *("line 0", "." * 80, "line 1", "." * 80, "line 2", "." * 76 + "M...", "line 3", "." * 76 + "M...", ""),
    *SHOWN[-3:],
]

# A tape whose second line lights every object, each by itself.
EACH_OBJECT = (
    "line\n 0 GRP0 $FF\n 3 GRP1 $FF\n 6 ENAM0 2\n 9 ENAM1 2\n 12 ENABL 2\n 15 PF0 $10\n"
    " 80 RESP0\n 100 RESP1\n 120 RESM0\n 140 RESM1\n 160 RESBL\nline\n"
)
EACH_OBJECT_AT = {0: "FFFF", 17: "PPPPPPPP", 37: "QQQQQQQQ", 56: "M", 76: "N", 80: "FFFF", 96: "B"}

# A tape whose second line has P0 at columns 37 to 44 and M0 at 39 to 46.
MEETING = "line\n 0 GRP0 $FF\n 3 NUSIZ0 $30\n 6 ENAM0 2\n 100 RESP0\n 103 RESM0\nline\n"
MEETING_ROWS = ["    1 " + "." * 37 + "PP******MM" + "." * 113, "      overlap 39-44 P0 M0"]

# Forty lines and more, with a colour.
LONG = "line\n 0 COLUBK $84\n 3 GRP0 $FF\n 6 ENAM0 2\n 100 RESM0\nrepeat 44\nline\n 0 COLUPF $1E\nend\n"
COLOURED = "line\n 0 COLUBK $84\n 1 COLUPF $1E\n 2 PF0 $10\n 9 HMOVE\nline\n"

# A source of which the second write of line 1 is refused, with its number; and tapes that are refused: how many lines are run, the
# listing's last line, and where they are damaged.
WRONG_WRITES = {5: " 228 GRP0 7", 6: " 3 GRP0 7", 7: " 9 $2d 7"}
REFUSED_TAPES = {
    b"\x01\x00": (0, "refused 9 line 0 record 0", "byte 1: the tape ends inside the length of line 0: expected two bytes, found one (refusal 9)"),
    b"\x02\x00\x00": (0, "refused 8 line 0 record 0", "byte 0: the version byte is $02: expected $01 (refusal 8)"),
    b"\x00": (0, "refused 8 line 0 record 0", "byte 0: the version byte is $00: expected $01 (refusal 8)"),
    b"\x01\x00\x00\x00\x04": (
        *(1, "refused 4 line 1 record 0"),
        "byte 3: the length of line 1 is 4: expected a multiple of 3, at most 684 (refusal 4)",
    ),
    b"\x01\x00\x00\x00\x06\x00\x1b\x01": (
        *(1, "refused 9 line 1 record 0"),
        "byte 3: the tape ends inside line 1: expected 6 bytes of writes, found 3 (refusal 9)",
    ),
    b"\x01\x00\x00\x00\x06\x00\x1b\x01\xe4\x1b\x01": (1, "refused 5 line 1 record 1", ""),
    b"\x01\x00\x00\x00\x06\x05\x1b\x01\x05\x1b\x01": (1, "refused 6 line 1 record 1", ""),
    b"\x01\x00\x00\x00\x03\x05\x2d\x01": (1, "refused 7 line 1 record 0", ""),
}

LINES_MISTAKE = "expected a line, such as 3, or lines, such as 3-8"
FOLD_MISTAKE = "expected a number of columns, 1 to 160"


def each(texts, words, message):
    """A wrong command line for each of these texts, which stands for TEXT in the words, and for 'TEXT' in the message."""
    return [([word.replace("TEXT", text) for word in words.split(" ")], message.replace("'TEXT'", repr(text))) for text in texts]


# Wrong command lines, and what the message has.
MISTAKES = [
    *each(["lok"], "TEXT a", "found 'TEXT': expected a verb, look, list, .*; did you mean './glintstool look a'?"),
    *each(["disasemble"], "TEXT a -o b", "did you mean './glintstool disassemble a -o b'?"),
    *each(["lessons/05.txt"], "TEXT", "found 'TEXT': expected a verb, look, .*; as in './glintstool look lessons/05.txt'"),
    *each(["--foo", "--", "-x"], "TEXT", "found 'TEXT': expected a verb, look, "),
    *each(["--lines"], "TEXT 3 look a", "found 'TEXT': expected a verb, look, .*; as in './glintstool look FILE'"),
    *each([""], "TEXT", "found 'TEXT': expected a verb, look, "),
    *(([verb, *SHOWING[verb]], "expected a source or a tape: add its name, such as lessons/05-moving-right.txt") for verb in SHOWING),
    (["picture", "a"], "expected a file to write: add '-o' and its name, such as -o mine.png"),
    (["page", "a"], "expected a file to write: add '-o' and its name, such as -o mine.html"),
    (["step", "a"], "expected a line: add '--line' and its number, such as --line 0"),
    *(([verb, "a", *SHOWING.get(verb, []), "b"], f"glintstool {verb}: found 'b': expected nothing more") for verb in VERBS),
    *(([verb, "a", *SHOWING.get(verb, []), "--foo"], "found '--foo': expected one of the verb's options") for verb in VERBS),
    (["cards", "b"], "glintstool cards: found 'b': expected nothing more"),
    *each(["--foo", "-o", "--quiet"], "cards TEXT", "found 'TEXT': expected one of the verb's options"),
    *each(["card"], "TEXT", "did you mean './glintstool cards'?"),
    *each(["--line", "--lin", "-o"], "look TEXT 1 a", "found 'TEXT': expected one of the verb's options"),
    *each(["--quiet"], "disassemble a TEXT", "found 'TEXT': expected one of the verb's options"),
    *each(["", "3-", "-3", "a", "1-2-3", "1,2", "٣"], "look --lines=TEXT a", f"argument --lines: found 'TEXT': {LINES_MISTAKE}"),
    *each(["3-1"], "look --lines TEXT a", "argument --lines: found 'TEXT': expected the lower line first"),
    *each(["3-1"], "picture --lines TEXT a -o b", "argument --lines: found 'TEXT': expected the lower line first"),
    *each(["3-1"], "page --lines TEXT a -o b", "argument --lines: found 'TEXT': expected the lower line first"),
    *each(["--lines", "--fold", "--colour"], "look a TEXT", "expected one argument"),
    *each(["", "x", "1-"], "step a --line 0 --clocks TEXT", "argument --clocks: found 'TEXT': expected a clock, such as 3"),
    *each(["228", "0-228"], "step a --line 0 --clocks TEXT", "argument --clocks: found 'TEXT': expected clocks from 0 to 227"),
    *each(["9-3"], "step a --line 0 --clocks TEXT", "argument --clocks: found 'TEXT': expected the lower clock first"),
    *each(["", "0", "161", "-1", "a", "4.5"], "look --fold=TEXT a", f"argument --fold: found 'TEXT': {FOLD_MISTAKE}"),
    *each(["", "0", "33", "-1", "a", "1.5"], "picture a -o b --scale=TEXT", "found 'TEXT': expected a scale, 1 to 32"),
    *each(["PF", "", "M2"], "step a --line 0 --object TEXT", "argument --object: found 'TEXT': expected P0, P1, M0, M1, BL"),
    *each(["", "-1", "65536", "a", "1-2"], "step a --line=TEXT", "argument --line: found 'TEXT': expected a line, 0 to 65535"),
    *each(["red"], "look --colour TEXT a", "argument --colour/--color: .*'TEXT'.*auto.*always.*never"),
]


def setUpModule():
    """Fails where the programs are not built from the sources that are there."""
    if programs.is_stale():
        raise AssertionError(f"not built: build with 'tools/build {' '.join(BUILT)}'")


def environment(**more):
    """The environment of a command on a terminal with 256 colours."""
    left_out = ("COLUMNS", "LINES", "NO_COLOR", "COLORTERM")
    return {**{name: value for name, value in os.environ.items() if name not in left_out}, "TERM": "xterm-256color", **more}


def called(*words):
    """What the command gives, called without a process of its own: status, what is printed, errors."""
    told, printed = io.StringIO(), io.StringIO()
    with contextlib.redirect_stderr(told), contextlib.redirect_stdout(printed):
        try:
            status = main([str(word) for word in words])
        except SystemExit as ended:
            status = ended.code
    return status, printed.getvalue(), told.getvalue()


class Case(unittest.TestCase):
    def setUp(self):
        folder = tempfile.TemporaryDirectory()
        self.addCleanup(folder.cleanup)
        self.folder = Path(folder.name)

    def file(self, name, data):
        """The name of a new file with these contents."""
        (self.folder / name).write_bytes(data if isinstance(data, bytes) else data.encode())
        return name

    def run_command(self, *words, data=b"", **options):
        """What the command gives, run in a folder of its own with these bytes on standard input: status, output, errors."""
        options = {"input": data, "env": environment(), "cwd": self.folder, "timeout": 60, **options}
        done = subprocess.run([*COMMAND, *words], stdout=subprocess.PIPE, stderr=subprocess.PIPE, **options)
        return done.returncode, done.stdout, done.stderr.decode()

    def text(self, *words, **options):
        """The text that the command gives where it must not fail."""
        status, output, errors = self.run_command(*words, **options)
        self.assertEqual((status, errors), (0, ""), words)
        return output.decode()

    def rows(self, *words, **options):
        """The rows that the command gives where it must not fail."""
        text = self.text(*words, **options)
        self.assertTrue(text.endswith("\n"))
        return text[:-1].split("\n")

    def assert_fails(self, message, *words, **options):
        """Asserts that the command writes nothing and ends with status 1 and this message."""
        self.assertEqual(self.run_command(*words, **options), (1, b"", message + "\n"))

    def on_terminal(self, *words, width=200, data=TAPE, **variables):
        """The status and what the command shows on a terminal so wide."""
        ours, theirs = pty.openpty()
        fcntl.ioctl(theirs, termios.TIOCSWINSZ, struct.pack("HHHH", 24, width, 0, 0))
        options = {"cwd": self.folder, "env": environment(**variables)}
        with subprocess.Popen([*COMMAND, *words], stdin=subprocess.PIPE, stdout=theirs, stderr=theirs, **options) as process:
            os.close(theirs)
            process.stdin.write(data)
            process.stdin.close()
            output = read_terminal(ours)
        return process.returncode, output.replace("\r\n", "\n")


class Help(Case):
    def help_of(self, *words):
        """The help that the command prints."""
        status, text, errors = called(*words, "--help")
        self.assertEqual((status, errors), (0, ""))
        return text

    def test_every_verb_has_examples_and_exit_status(self):
        self.assertEqual(list(EXAMPLES), ["", *ALL_VERBS])
        for verb in EXAMPLES:
            words = [verb] if verb else []
            text = self.help_of(*words)
            self.assertIn(f"\nexamples:{EXAMPLES[verb]}\n\n{STATUS}\n", text)
            self.assertRegex(text, r"\Ausage: \S+ " + verb)

    def test_the_short_option_and_the_verbs_in_the_first_help(self):
        text = self.text("-h")
        self.assertEqual(text, self.text("help"))
        self.assertEqual(text, self.text("--help"))
        self.assertTrue(text.startswith("usage: glintstool [-h] VERB"))
        for verb in ALL_VERBS:
            self.assertRegex(text, rf"\n    {verb}\s+[a-z]")

    def test_every_option_is_explained(self):
        options = {
            "look": "--lines --fold --colour --color --pal --quiet",
            "list": "--quiet",
            "picture": "-o --scale --lines --pal --quiet",
            "page": "-o --lines --pal --quiet",
            "step": "--line --clocks --object --quiet",
            "assemble": "-o --quiet",
            "disassemble": "-o",
            "cards": "",
        }
        for verb, names in options.items():
            text = self.help_of(verb).partition("examples:")[0]
            found = set(re.findall(r"(?<![\w-])--?[a-z]+\b", text)) - {"-h", "--help"}
            self.assertEqual(sorted(found), sorted(names.split()), verb)

    def test_every_example_runs(self):
        for name in ("glintstool", "lessons", "target"):
            (self.folder / name).symlink_to(PROJECT / name)
        path = f"{Path(sys.executable).parent}:{os.environ['PATH']}"
        examples = [row.strip() for rows in EXAMPLES.values() for row in rows.splitlines() if row.strip()]
        self.assertEqual(len(examples), 21)
        written = {}
        for row in examples:
            self.file("mine.txt", LONG)
            self.file("mine.tape", TAPE)
            example = re.split("  +", row)[0].replace("VERB", "page").replace("| less", "| cat").replace("| lp", "| cat")
            self.assertTrue(example.startswith("./glintstool "), row)
            options = {"shell": True, "cwd": self.folder, "env": environment(PATH=path), "capture_output": True, "timeout": 60}
            done = subprocess.run(example, **options)
            told = done.stderr.decode().splitlines()
            self.assertEqual((done.returncode, [row for row in told if "hint: " not in row]), (0, []), example)
            output = re.search("-o ([^ ]+)", example)
            written[example] = (self.folder / output[1]).read_bytes() if output else done.stdout
            self.assertTrue(written[example], example)
        self.assertEqual(assemble(written["./glintstool disassemble mine.tape -o mine.txt"].decode()), TAPE)


class Cards(Case):
    def test_pages_begin_with_a_form_feed_but_the_first(self):
        text = self.text("cards")
        self.assertEqual(text.count("\f"), 2)
        pages = text.split("\f")
        self.assertEqual(pages, ["".join(f"{row}\n" for row in page) for page in pages_of(programs.card_bytes())])

    def test_a_terminal_has_an_empty_row_instead(self):
        ours, theirs = pty.openpty()
        done = subprocess.run([*COMMAND, "cards"], stdout=theirs, stderr=subprocess.PIPE, timeout=60)
        os.close(theirs)
        text = read_terminal(ours).replace("\r\n", "\n")
        self.assertEqual((done.returncode, done.stderr), (0, b""))
        self.assertEqual(text, self.text("cards").replace("\f", "\n"))


class Mistakes(Case):
    def test_each_is_told_with_where_to_read_on(self):
        for words, expected in MISTAKES:
            status, printed, errors = called(*words)
            verb = f" {words[0]}" if words[0] in ALL_VERBS else ""
            self.assertEqual((status, printed), (2, ""), words)
            rows = errors.splitlines()
            self.assertEqual(len(rows), 2, rows)
            self.assertRegex(rows[0], rf"\Aglintstool{verb}: ")
            pattern = ".*".join(re.escape(part) for part in expected.split(".*"))
            self.assertRegex(rows[0], pattern)
            self.assertEqual(rows[1], f"see './glintstool{verb} --help'")

    def test_no_verb(self):
        status, output, errors = self.run_command()
        self.assertEqual((status, output), (2, b""))
        self.assertEqual(errors, self.text("--help"))

    def test_the_status_of_the_process(self):
        for words in (["lok", "a"], ["look", "--fold", "0", "a"]):
            status, output, errors = self.run_command(*words)
            self.assertEqual((status, output), (2, b""))
            self.assertTrue(errors.startswith("glintstool"))

    def test_nothing_is_written_for_a_wrong_command_line(self):
        self.file("a.txt", SOURCE)
        self.file("out", "before")
        self.assertEqual(self.run_command("picture", "a.txt", "-o", "out", "--scale", "0")[0], 2)
        self.assertEqual((self.folder / "out").read_text(), "before")


class Inputs(Case):
    def test_missing(self):
        self.assert_fails("none.tape: found no such file: name a source or a tape", "look", "none.tape")
        self.assert_fails("none/a.txt: found no such file: name a source or a tape", "look", "none/a.txt")
        self.file("lesson.txt", SOURCE)
        self.assert_fails("lesso.txt: found no such file: did you mean lesson.txt?", "look", "lesso.txt")
        self.assert_fails("./lesso.txt: found no such file: did you mean ./lesson.txt?", "look", "./lesso.txt")
        name = self.folder / "none"
        for verb in VERBS:
            told = f"{name}: found no such file: name a source or a tape\n"
            self.assertEqual(called(verb, name, *SHOWING.get(verb, [])), (1, "", told))
        self.assertFalse(Path("out").exists())

    def test_a_folder(self):
        for verb in VERBS:
            told = f"{self.folder}: found a folder: expected a source or a tape; name a file in it\n"
            self.assertEqual(called(verb, self.folder, *SHOWING.get(verb, [])), (1, "", told))

    def test_empty(self):
        message = "found no bytes: expected a source, which has a 'line' for each scanline, or a tape"
        name = self.file("empty", b"")
        for verb in VERBS:
            told = f"{self.folder / name}: {message}\n"
            self.assertEqual(called(verb, self.folder / name, *SHOWING.get(verb, [])), (1, "", told))
        for verb in ("look", "picture", "disassemble"):
            self.assert_fails(f"standard input: {message}", verb, "-", *SHOWING.get(verb, []))

    def test_standard_input_closed(self):
        done = subprocess.run(["sh", "-c", 'exec "$0" "$@" <&-', *COMMAND, "look", "-"], capture_output=True, cwd=self.folder)
        self.assertEqual((done.returncode, done.stdout), (1, b""))
        self.assertRegex(done.stderr.decode(), r"\Astandard input: cannot be read: [^\n]*\n\Z")

    def test_unreadable(self):
        name = self.file("a.txt", SOURCE)
        self.assert_fails("a.txt/b: cannot be read: Not a directory: name another file", "look", "a.txt/b")
        if os.geteuid() != 0:
            (self.folder / name).chmod(0)
            self.assert_fails("a.txt: cannot be read: Permission denied: name another file", "look", "a.txt")

    def test_utf_16(self):
        name = self.file("a.txt", SOURCE.encode("utf-16"))
        for verb in VERBS:
            told = f"{self.folder / name}: found UTF-16 text: save it as UTF-8\n"
            self.assertEqual(called(verb, self.folder / name, *SHOWING.get(verb, [])), (1, "", told))

    def test_bytes_that_are_no_text(self):
        status, output, errors = self.run_command("look", self.file("bytes.txt", b"line\n\xff"))
        self.assertEqual((status, output), (1, b""))
        self.assertRegex(errors, r"\Abytes\.txt:2: [^\n]*\$FF[^\n]*\n\Z")

    def test_a_source_with_mistakes_has_all_of_them_told(self):
        name = self.file("bad.txt", "line\n\n 5 HMM9 3\n 300 HMM0\nlien\n")
        pattern = r"\A\S*bad\.txt:3: [^\n]*HMM9[^\n]*\n\S*bad\.txt:4: [^\n]*\n\S*bad\.txt:5: [^\n]*lien[^\n]*\n\Z"
        for verb in (*SHOWING, "assemble"):
            status, printed, errors = called(verb, self.folder / name, *SHOWING.get(verb, []))
            self.assertEqual((status, printed), (1, ""))
            self.assertRegex(errors, pattern)
        status, output, errors = self.run_command("look", name)
        self.assertEqual((status, output), (1, b""))
        self.assertRegex(errors, pattern)

    def test_a_tape_given_as_a_source_and_the_other_way_round(self):
        from_tape = "found a tape: './glintstool disassemble' turns it into a source; './glintstool look' shows it"
        from_source = "found a source: './glintstool assemble' turns it into a tape; './glintstool look' shows it"
        self.assert_fails(f"a.txt: {from_tape}", "assemble", self.file("a.txt", TAPE))
        self.assert_fails(f"standard input: {from_tape}", "assemble", "-", data=TAPE)
        self.assert_fails(f"standard input: {from_tape}", "assemble", data=TAPE)
        self.assert_fails(f"a.tape: {from_source}", "disassemble", self.file("a.tape", SOURCE))
        self.assert_fails(f"standard input: {from_source}", "disassemble", "-", data=SOURCE.encode())
        self.assert_fails(f"standard input: {from_source}", "disassemble", data=SOURCE.encode())

    def test_told_apart_by_what_they_hold_for_each_verb(self):
        tape, source = self.file("a.txt", TAPE), self.file("a.tape", SOURCE)
        for verb, more in SHOWING.items():
            found = []
            for name, data in ((tape, b""), (source, b""), ("-", TAPE), ("-", SOURCE.encode())):
                status, output, errors = self.run_command(verb, name, *more, "--quiet", data=data)
                self.assertEqual((status, errors), (0, ""), (verb, name))
                if verb in ("picture", "page"):
                    output = (self.folder / "out").read_bytes()
                found.append(output.partition(b"\n")[2] if verb == "step" else output)
            self.assertTrue(found[0])
            if verb != "page":  # it names the input, and the rows of a source
                self.assertEqual(set(found), {found[0]}, verb)

    def test_a_name_that_is_no_utf_8(self):
        name = os.fsdecode(b"b\xff.txt")
        try:
            self.file(name, MEETING + " 5 $2d 7\n")
        except OSError:
            self.skipTest("the file system takes no such name")
        for verb, more in SHOWING.items():
            status, _, errors = self.run_command(verb, name, *more)
            self.assertEqual((status, "Traceback" in errors), (1, False), verb)
        self.assertIn("b\ufffd.txt:8: 5 $2D $07", self.run_command("look", name)[1].decode())

    def test_an_empty_name(self):
        self.assert_fails("'': found no such file: name a source or a tape", "look", "")
        self.file("a.txt", SOURCE)
        message = "'': cannot be written: No such file or directory: name another file with -o"
        self.assert_fails(message, "picture", "a.txt", "--quiet", "-o", "")


class Outputs(Case):
    def test_the_output_is_the_input(self):
        advice = "cannot be written: it is the input: name another file with -o"
        for verb, data in (("assemble", SOURCE.encode()), ("disassemble", TAPE), ("picture", TAPE), ("page", TAPE)):
            name = self.file("a", data)
            self.assert_fails(f"a: {advice}", verb, name, "-o", "a", *(["--quiet"] if verb == "picture" else []))
            self.assert_fails(f"./a: {advice}", verb, name, "-o", "./a", *(["--quiet"] if verb == "picture" else []))
            self.assertEqual((self.folder / "a").read_bytes(), data)

    def test_the_output_is_the_file_on_standard_input(self):
        name = self.file("a", SOURCE)
        with open(self.folder / name, "rb") as given:
            status, _, errors = self.run_command("assemble", "-", "-o", name, input=None, stdin=given)
        self.assertEqual((status, errors), (1, "a: cannot be written: it is the input: name another file with -o\n"))
        self.assertEqual((self.folder / name).read_text(), SOURCE)

    def test_in_no_folder(self):
        name = self.file("a.txt", COLOURED)
        for verb in ("picture", "page", "assemble"):
            message = "none/out: cannot be written: No such file or directory: name another file with -o"
            self.assert_fails(message, verb, name, "-o", "none/out")
        (self.folder / "out").mkdir()
        self.assert_fails("out: cannot be written: Is a directory: name another file with -o", "page", name, "-o", "out")

    def test_a_full_disk(self):
        for words in (["look", "-"], ["list", "-"], ["page", "-", "-o", "-"], ["step", "-", "--line", "0"], ["disassemble"]):
            with open("/dev/full", "wb") as full:
                options = {"input": TAPE, "stdout": full, "stderr": subprocess.PIPE, "cwd": self.folder}
                done = subprocess.run([*COMMAND, *words], **options)
            self.assertEqual(done.returncode, 1, words)
            self.assertEqual(done.stderr.decode(), "standard output: cannot be written: No space left on device\n")

    def test_a_closed_output(self):
        for verb, more in (("look", ["--colour", "auto"]), ("list", [])):
            command = ["sh", "-c", 'exec "$0" "$@" >&-', *COMMAND, verb, "-", *more]
            done = subprocess.run(command, input=TAPE, stderr=subprocess.PIPE, cwd=self.folder)
            self.assertEqual(done.returncode, 1)
            self.assertRegex(done.stderr.decode(), r"\Astandard output: cannot be written: [^\n]*\n\Z")

    def test_closed_messages(self):
        hinted = "line\n 0 ENAM0 1\nline\n"
        shown = self.run_command("look", "--quiet", "-", data=hinted.encode())
        command = ["sh", "-c", 'exec "$0" "$@" 2>&-', *COMMAND, "look", "-"]
        done = subprocess.run(command, input=hinted.encode(), stdout=subprocess.PIPE, cwd=self.folder)
        self.assertEqual((done.returncode, done.stdout), (0, shown[1]))

    def test_a_closed_pipe(self):
        pipes = {"stdin": subprocess.PIPE, "stdout": subprocess.PIPE, "stderr": subprocess.PIPE}
        for verb in ("look", "list", "disassemble"):
            with subprocess.Popen([*COMMAND, verb, "-"], **pipes) as run:
                run.stdout.close()
                run.stdin.write(bytes([1] + [0] * 4000))
                run.stdin.close()
                self.assertEqual((run.stderr.read(), run.wait()), (b"", 0), verb)

    def test_bytes_are_not_written_to_a_terminal(self):
        for words, what in ((["assemble"], "tape"), (["picture", "-", "-o", "-"], "picture")):
            message = f"standard output is a terminal: name a file for the {what} with -o\n"
            self.assertEqual(self.on_terminal(*words, data=COLOURED.encode()), (1, message))

    def test_standard_output_as_the_file(self):
        status, output, _ = self.run_command("picture", "-", "-o", "-", data=COLOURED.encode())
        self.assertEqual((status, len(pixels_of(output))), (0, 8))
        self.assertRegex(self.text("page", "-", "-o", "-", data=COLOURED.encode()), r"\A<!DOCTYPE html>")
        self.assertEqual(self.run_command("assemble", "-", "-o", "-", data=SOURCE.encode())[1], TAPE)

    def test_a_command_that_fails_leaves_the_output_as_it_was(self):
        wrong = {"bad": "line\n 5 HMM9 3\n", "empty": "", "no lines": "; nothing\n", "tape too long": bytes([1] + [0] * 65536)}
        for contents in wrong.values():
            for verb in ("picture", "assemble", "disassemble"):
                if (verb, contents) == ("assemble", wrong["no lines"]):
                    continue  # it is a tape, of no lines
                self.file("out", "before")
                status, printed, errors = called(verb, self.folder / self.file("a", contents), "-o", self.folder / "out")
                self.assertEqual((status, printed), (1, ""))
                self.assertTrue(errors)
                self.assertEqual((self.folder / "out").read_text(), "before")


class Look(Case):
    def test_printed_case(self):
        self.assertEqual(self.rows("look", self.file("a.tape", TAPE)), SHOWN)
        self.assertEqual(self.rows("look", self.file("a_tape", SOURCE)), SHOWN)
        self.assertEqual(self.rows("look", "-", data=TAPE), SHOWN)

    def test_each_object(self):
        rows = self.rows("look", "--lines", "1", self.file("each", EACH_OBJECT))
        row = "    1 "
        for column, letters in EACH_OBJECT_AT.items():
            row = row.ljust(6 + column, ".") + letters
        legend_row = "legend: P = P0, Q = P1, M = M0, N = M1, B = BL, F = PF, . = nothing"
        self.assertEqual(rows, [*RULER, row.ljust(166, "."), "", legend_row, NO_LATCHES, "met: none"])

    def test_letters_whatever_the_colours(self):
        colours = " 20 COLUP0 $FF\n 21 COLUP1 $40\n 22 COLUPF $20\n 23 COLUBK $C1\n"
        plain = self.rows("look", self.file("each", EACH_OBJECT))
        for control in (0, 2, 4, 6):
            coloured = EACH_OBJECT.replace(" 80 RESP0", f"{colours} 24 CTRLPF {control}\n 80 RESP0")
            self.assertEqual(self.rows("look", self.file("coloured", coloured)), plain)

    def test_overlap(self):
        rows = self.rows("look", self.file("meeting", MEETING))
        self.assertEqual(rows[4:6], MEETING_ROWS)
        self.assertEqual(rows[-3], "legend: P = P0, M = M0, * = overlap, . = nothing")
        self.assertEqual(rows[-2:], ["cx 40 00 00 00 00 00 00 00", "met: M0-P0"])

    def test_lines_and_fold(self):
        rows = self.rows("look", "--lines", "2-9", "--fold", "40", self.file("a.tape", TAPE))
        shown_lit = [f"    {number} " + "." * 36 + "M..." for number in (2, 3)]
        self.assertEqual([row for row in rows if "M" in row], [*shown_lit, SHOWN[8]])
        self.assertEqual(len(rows), 2 * (2 + 3) + 2 * (3 + 3) + 4)
        self.assertEqual(rows[-3], "lines 4-9 were not run; lines 0-3 were")

    def test_the_lessons_show_their_pictures(self):
        for lesson in LESSONS[:3]:
            status, output, _ = self.run_command("look", lesson)
            self.assertEqual(output.decode(), lesson.with_suffix(".picture").read_text("utf-8"))

    def test_a_source_without_lines(self):
        told = "a.txt: found no 'line': expected one for each scanline"
        for text in ("\n", "; nothing\n"):
            status, output, errors = self.run_command("look", self.file("a.txt", text))
            self.assertEqual((status, errors), (1, ""))
            self.assertEqual(output.decode().splitlines(), ["no line was run", NO_LATCHES, "met: none", told])
            status, _, errors = self.run_command("list", "a.txt")
            self.assertEqual((status, errors), (1, f"{told}\n"))
            self.assertEqual(self.run_command("page", "a.txt", "-o", "out")[::2], (1, f"{told}\n"))
            self.assertEqual(self.run_command("assemble", "a.txt"), (0, b"\1", told.replace(": ", ": hint: ", 1) + "\n"))
        self.assertEqual(self.rows("look", "-", data=b"\1"), ["no line was run", NO_LATCHES, "met: none"])

    def test_lines_that_were_not_run(self):
        message = "a.tape: lines 4-9 were not run; lines 0-3 were"
        self.assert_fails(message, "look", "--lines", "4-9", self.file("a.tape", TAPE))

    def test_width_of_the_terminal(self):
        for width, fold in ((200, 160), (167, 160), (166, 80), (87, 80), (79, 40)):
            status, shown = self.on_terminal("look", "--colour", "never", "-", width=width)
            self.assertEqual((status, shown), (0, self.text("look", "--fold", str(fold), "-", data=TAPE)), width)

    def test_two_bands_of_80_with_the_number_above_on_80_columns(self):
        for width in (80, 86):
            self.assertEqual(self.on_terminal("look", "--colour", "never", "-", width=width), (0, "\n".join(ABOVE_80) + "\n"))

    def test_no_terminal_whatever_the_width(self):
        self.assertEqual(self.rows("look", "-", data=TAPE, env=environment(COLUMNS="80")), SHOWN)


class Colour(Case):
    def test_on_a_terminal_and_nowhere_else(self):
        plain = self.text("look", "-", data=COLOURED.encode())
        self.assertIsNone(CODES.search(plain))
        for words, variables, coloured in (
            ([], {}, True),
            ([], {"NO_COLOR": ""}, True),
            ([], {"NO_COLOR": "1"}, False),
            (["--color", "always"], {"NO_COLOR": "1"}, True),
            ([], {"TERM": "dumb"}, False),
            (["--colour", "never"], {}, False),
        ):
            status, shown = self.on_terminal("look", *words, "-", data=COLOURED.encode(), **variables)
            self.assertEqual((status, bool(CODES.search(shown))), (0, coloured), (words, variables))
            self.assertEqual(CODES.sub("", shown), plain)

    def test_always_through_a_pipe(self):
        shown = self.text("look", "--colour", "always", "-", data=COLOURED.encode(), env=environment(COLORTERM="truecolor"))
        blanked = "\x1b[38;5;231;48;2;0;0;0m"
        field = "\x1b[38;5;16;48;2;{};{};{}m".format(*colour_of(NTSC, 0x1E))
        ground = "\x1b[38;5;231;48;2;{};{};{}m".format(*colour_of(NTSC, 0x84))
        half = f"{field}FFFF\x1b[0m{ground}{'.' * 76}\x1b[0m"
        rows = [f"    0 {blanked}--------\x1b[0m{ground}{'.' * 72}\x1b[0m{half}", f"    1 {half}{half}"]
        self.assertEqual(shown.splitlines()[3:5], rows)
        self.assertEqual(CODES.sub("", shown), self.text("look", "-", data=COLOURED.encode()))

    def test_pal(self):
        shown = [self.text("look", "--colour", "always", *more, "-", data=COLOURED.encode()) for more in ([], ["--pal"])]
        self.assertNotEqual(*shown)
        self.assertEqual(*(CODES.sub("", text) for text in shown))

    def test_objects_where_the_tape_has_no_colour(self):
        shown = self.text("look", "--colour", "always", "-", data=TAPE)
        self.assertIn("    1 ...\x1b[95mM\x1b[0m...", shown)
        self.assertEqual(CODES.sub("", shown), "\n".join(SHOWN) + "\n")


class Refused(Case):
    def test_look_shows_the_lines_that_were_run(self):
        for tape, (lines, last, place) in REFUSED_TAPES.items():
            status, output, errors = self.run_command("look", "-", data=tape)
            rows = output.decode().splitlines()
            self.assertEqual((status, errors), (1, ""), last)
            self.assertIn(SHOWN[3] if lines else "no line was run", rows)
            end = [last, meaning(last.split()[1], REFUSALS), *([f"standard input: {place}"] if place else [])]
            self.assertEqual(rows[-len(end) :], end)

    def test_the_other_verbs(self):
        for tape, (lines, last, place) in list(REFUSED_TAPES.items())[1:6:2]:
            told = f"{last}\n{meaning(last.split()[1], REFUSALS)}\n" + (f"a: {place}\n" if place else "")
            name = self.file("a", tape)
            status, output, errors = self.run_command("list", name)
            self.assertEqual((status, output.decode().splitlines()[-1], errors), (1, last, told.partition("\n")[2]))
            (self.folder / "out").unlink(missing_ok=True)
            status, _, errors = self.run_command("picture", name, "-o", "out", "--scale", "1", "--quiet")
            self.assertEqual((status, errors), (1, told if lines else f"a: no line was run\n{told}"))
            self.assertEqual((self.folder / "out").exists(), lines > 0)
            if lines:
                self.assertEqual(len(pixels_of((self.folder / "out").read_bytes())), lines)
            self.assertEqual(self.run_command("page", name, "-o", "out"), (1, b"", told))
            _, number, _, line, *_ = last.split()
            self.assertIn(f"Line {line} is refused, number {number}", (self.folder / "out").read_text("utf-8"))
            not_run = "line 1 was not run; line 0 was" if lines else "no line was run"
            self.assertEqual(self.run_command("step", name, "--line", "1"), (1, b"", f"a: {not_run}\n{told}"))
            if lines:
                status, output, errors = self.run_command("step", name, "--line", "0")
                self.assertEqual((status, errors, len(output.decode().splitlines()) > 228), (1, told, True))

    def test_where_in_a_source(self):
        before = "line\n\nline ; two\n  3 grp0 1 ; first\n"
        for number, write in WRONG_WRITES.items():
            name = self.file("a.txt", f"{before}{write} ; here\nline\n")
            status, output, errors = self.run_command("look", name, "--quiet")
            place = f"a.txt:5:{write.upper().replace(' 7', ' $07')}"
            self.assertEqual((status, errors), (1, ""))
            self.assertEqual(output.decode().splitlines()[-3::2], [f"refused {number} line 1 record 1", place])
            for verb in ("picture", "page"):
                status, _, errors = called(verb, self.folder / name, "-o", self.folder / "out", "--quiet")
                self.assertEqual((status, errors.splitlines()[-1]), (1, f"{self.folder}/{place}"), verb)
        for verb in ("list", "step"):
            status, _, errors = self.run_command(verb, name, *SHOWING[verb], "--quiet")
            self.assertEqual((status, errors.splitlines()[-1]), (1, place), verb)

    def test_longest_and_too_long(self):
        longest = bytes([1] + [0] * 65535)
        status, output, _ = self.run_command("look", "--lines", "32767", "-", data=longest)
        self.assertEqual((status, output), (1, b""))
        status, output, _ = self.run_command("look", "--lines", "32766", "-", data=longest)
        self.assertEqual((status, output.decode().splitlines()[-3]), (1, "refused 9 line 32767 record 0"))
        words = ending("tape too long", REFUSALS).words
        too_long = longest + b"\0"
        for verb, more in SHOWING.items():
            status, output, errors = self.run_command(verb, "-", *more, data=too_long)
            self.assertEqual(status, 1, verb)
            self.assertTrue((output.decode() + errors).endswith(f"tape too long\n{words}\n"), verb)
        self.assert_fails(f"standard input: tape too long: {words}", "disassemble", data=too_long)

    def test_a_write_is_refused_before_the_tape_is_damaged(self):
        tape = b"\x01\x00\x03\x05\x2d\x01\x00"
        self.assertEqual(self.run_command("disassemble", "-", data=tape)[0], 1)
        _, output, _ = self.run_command("look", "-", data=tape)
        self.assertEqual(output.decode().splitlines()[-2:], ["refused 7 line 0 record 0", meaning("7", REFUSALS)])

    def test_disassemble_names_the_place(self):
        message = "standard input: byte 0: the version byte is $02: expected $01 (refusal 8)"
        self.assert_fails(message, "disassemble", data=b"\2\0\0")
        status, output, errors = self.run_command("disassemble", "-", data=TAPE[:-1])
        self.assertEqual((status, output), (1, b""))
        self.assertRegex(errors, r"\Astandard input: byte \d+: .*\(refusal 9\)\n\Z")


class Hints(Case):
    def test_on_standard_error_and_silenced(self):
        name = self.file("a.txt", "line\n 0 COLUBK $84\n 3 ENAM0 1\n")
        for verb in (*SHOWING, "assemble"):
            more = SHOWING.get(verb, [])
            status, output, errors = self.run_command(verb, name, *more)
            self.assertEqual(status, 0)
            self.assertRegex(errors, r"\Aa\.txt:3: hint: [^\n]*ENAM0[^\n]*\n\Z")
            self.assertNotIn(b"hint", output)
            self.assertEqual(self.run_command(verb, name, *more, "--quiet"), (0, output, ""))

    def test_a_tape_has_none(self):
        self.assertEqual(self.run_command("look", "-", data=assemble("line\n 3 ENAM0 1\n"))[2], "")

    def test_a_picture_that_is_all_black(self):
        for chosen, black in (([], False), (["--lines", "0"], True)):
            name = self.file("a.txt", "line\nline\n 0 COLUBK $84\n")
            errors = self.run_command("picture", name, "-o", "out", *chosen)[2]
            self.assertEqual("a.txt: hint: every column drawn is black: write COLUBK, " in errors, black)
        self.assertEqual(self.run_command("picture", "-", "-o", "out", "--quiet", data=TAPE), (0, b"", ""))


class Others(Case):
    def test_list(self):
        self.assertEqual(self.text("list", "-", data=TAPE), LISTING)
        for lesson in LESSONS[:2]:
            self.assertEqual(self.text("list", lesson, "--quiet"), lesson.with_suffix(".listing").read_text("utf-8"))

    def test_assemble_into_list(self):
        command = f"{sys.executable} {PROJECT}/glintstool assemble mine.txt | {sys.executable} {PROJECT}/glintstool list -"
        self.file("mine.txt", SOURCE)
        done = subprocess.run(command, shell=True, cwd=self.folder, capture_output=True)
        self.assertEqual((done.returncode, done.stdout.decode(), done.stderr), (0, LISTING, b""))

    def test_assemble_and_disassemble(self):
        self.assertEqual(self.run_command("assemble", self.file("a.txt", SOURCE), "-o", "a.tape"), (0, b"", ""))
        self.assertEqual((self.folder / "a.tape").read_bytes(), TAPE)
        self.assertEqual(self.run_command("disassemble", "a.tape", "-o", "b.txt"), (0, b"", ""))
        self.assertEqual(self.run_command("assemble", "b.txt"), (0, TAPE, ""))

    def test_disassemble_gives_back_each_lesson(self):
        self.assertGreater(len(LESSONS), 12)
        for tape in [lesson.with_suffix(".tape") for lesson in LESSONS]:
            self.assertEqual(called("disassemble", tape, "-o", self.folder / "source"), (0, "", ""))
            self.assertEqual(called("assemble", "--quiet", self.folder / "source", "-o", self.folder / "tape"), (0, "", ""))
            self.assertEqual((self.folder / "tape").read_bytes(), tape.read_bytes(), tape.name)

    def test_picture(self):
        tape = assemble(COLOURED)
        written = subprocess.run([PROJECT / "target/bin/line_bytes"], input=tape, stdout=subprocess.PIPE, check=True).stdout
        lines = lines_of(written)
        for words, chosen, standard, scale in (
            ([], lines, NTSC, 4),
            (["--scale", "1"], lines, NTSC, 1),
            (["--pal", "--scale", "2"], lines, PAL, 2),
            (["--lines", "1"], lines[1:], NTSC, 4),
        ):
            self.assertEqual(self.run_command("picture", "-", "-o", "out.png", *words, data=tape), (0, b"", ""))
            self.assertEqual(pixels_of((self.folder / "out.png").read_bytes()), picture_rows(chosen, standard, scale))

    def test_lines_that_were_not_run(self):
        name = self.file("a.txt", COLOURED)
        for verb in ("picture", "page"):
            self.file("out", "before")
            self.assert_fails("a.txt: lines 2-3 were not run; lines 0-1 were", verb, name, "-o", "out", "--lines", "2-3")
            self.assertEqual((self.folder / "out").read_text(), "before")
            told = "a.txt: lines 2-3 were not run; lines 0-1 were\n"
            self.assertEqual(self.run_command(verb, name, "-o", "out", "--lines", "1-3"), (0, b"", told))
        self.assert_fails("a.txt: line 2 was not run; lines 0-1 were", "step", name, "--line", "2")

    def test_page(self):
        texts = [self.text("page", self.file("mine.txt", LONG), "-o", "-", *more) for more in (["--lines", "3-8"], ["--pal"])]
        for text, standard in zip(texts, ("NTSC", "PAL")):
            self.assertIn("mine.txt", text)
            self.assertIn(standard, text)
        self.assertLess(len(texts[0]), len(texts[1]))

    def test_step(self):
        rows = self.rows("step", "--line", "2", "--clocks", "0-12", "-", data=TAPE)
        self.assertEqual(rows[0], "standard input, line 2, M0")
        cells = [row.split() for row in rows[2:15]]
        self.assertEqual([int(row[0]) for row in cells], [*range(13)])
        self.assertEqual([row[11:] for row in cells], [["HMM0", "$70"], *[[]] * 8, ["HMOVE"], *[[]] * 3])
        self.assertEqual([row[8] for row in cells], ["+7"] * 13)
        self.assertEqual([row[9] for row in cells], ["-"] * 9 + ["live"] * 4)

    def test_step_shows_the_object_asked_for(self):
        name = self.file("a.txt", EACH_OBJECT)
        for words, expected in ([], "P0"), (["--object", "bl"], "BL"), (["--object", "M1"], "M1"):
            rows = self.rows("step", name, "--line", "1", *words)
            self.assertEqual(rows[0], f"a.txt, line 1, {expected}")
            lit = [int(row.split()[1]) for row in rows[2:230] if row.split()[rows[1].split().index("lit")] == "lit"]
            self.assertEqual(lit, {"P0": [*range(17, 25)], "BL": [96], "M1": [76]}[expected])

    def test_step_shows_the_pixels_of_a_player(self):
        name = self.file("a.txt", "line\n 0 GRP0 $FF\n 1 NUSIZ0 7\n 100 RESP0\nline\n 116 NUSIZ0 0\n")
        rows = self.rows("step", name, "--line", "1", "--clocks", "105-121")
        self.assertEqual(rows[1].split()[10:12], ["pixel", "shown"])
        cells = ["".join(row.split()[10:12]) for row in rows[2:19]]
        self.assertEqual(cells, "-- 01 02 03 04 11 12 13 14 21 22 31 41 51 61 71 --".split())

    def test_from_another_folder(self):
        (self.folder / "link").symlink_to(PROJECT / "glintstool")
        done = subprocess.run([sys.executable, "link", "list", "-"], input=TAPE, capture_output=True, cwd=self.folder)
        self.assertEqual((done.returncode, done.stdout.decode(), done.stderr), (0, LISTING, b""))


if __name__ == "__main__":
    unittest.main()
