"""Tests of the programs' building, in a small project of its own whose `tools/build` calls a script `rt` that proves nothing, and of
what is told when a program fails. Needs target/bin. Run: python3 -m unittest classroom.tests.test_programs"""

import os
import pty
import re
import select
import shutil
import signal
import subprocess
import sys
import tempfile
import time
import unittest
from pathlib import Path
from unittest import mock

sys.dont_write_bytecode = True

from classroom import programs
from classroom.command import Failure
from classroom.lines import lines_of
from classroom.notation import assemble
from classroom.tests.cases import read_terminal

PROJECT = Path(__file__).resolve().parent.parent.parent
SOURCE = "line\n 0 ENAM0 2\n 100 RESM0\nline\n"
LISTING = "line P0 P1 M0 M1 BL PF\n0 - - - - - -\n1 - - 36 - - -\ncx 00 00 00 00 00 00 00 00\n"
BUILT = ("card_bytes", "clock_bytes", "line_bytes", "listing")
OLD = 1_000_000_000  # a time long ago
FIRST = re.compile(r"building the programs: (\d+) crates are proved first, which may take five minutes")
LAST = re.compile(r"built in \d+ seconds")
NO_RT = "'rt' is missing: install the Rattle kit and put its bin folder on PATH; it proves and builds the programs"
AS_THEY_ARE = "the programs are older than their sources, and 'rt' is missing: they are used as they are"
NO_END = "target/bin/listing: found {} at the listing's end: expected latches or a refusal"
WAITING = "the programs are being built by another call: waiting for it"

BUILD = "line_bytes listing clock_bytes card_bytes"

# The programs' crates, in the order in which they are proved.
CRATES = (
    "laws", "refusal", "counter", "mirror", "tia", "tape", "replay", "streams", "line_bytes", "listing_text", "listing", "clock_bytes", "card_bytes",
)  # fmt: skip
COUNT = len(CRATES)
PROVED = "".join(f"echo 'rt: {crate} proved (0 s)'\n" for crate in CRATES)
INSTALLED = f"cp {PROJECT}/target/bin/* target/bin\necho 'rt: ok, {COUNT} crates proved'\n"


def interruptible():
    """Lets SIGINT end this process, as in a terminal, also where its parent ignores it."""
    signal.signal(signal.SIGINT, signal.SIG_DFL)


def stands_on():
    """The crates of crates.txt and those that each stands on, all of them."""
    rows = [row.split(":") for row in (PROJECT / "crates.txt").read_text("ascii").splitlines() if ":" in row and row[0] != "#"]
    directly = {name: set(rest.split()) for name, rest in rows}
    found = dict(directly)
    for _ in directly:
        found = {name: set().union(crates, *(found.get(crate, ()) for crate in crates)) for name, crates in found.items()}
    return {name: crates & set(directly) for name, crates in found.items()}


class Project(unittest.TestCase):
    """A project in a folder of its own: the command, the crates' files, and shell scripts as `rt` and as what calls it."""

    def setUp(self):
        folder = tempfile.TemporaryDirectory()
        self.addCleanup(folder.cleanup)
        self.folder = Path(folder.name).resolve()
        shutil.copytree(PROJECT / "classroom", self.folder / "classroom", ignore=shutil.ignore_patterns("tests", "__pycache__"))
        shutil.copy(PROJECT / "glintstool", self.folder)
        (self.folder / "docs").mkdir()
        shutil.copy(PROJECT / "docs/REFUSALS.md", self.folder / "docs")
        (self.folder / "target/bin").mkdir(parents=True)
        (self.folder / "commands").mkdir()
        (self.folder / "tools").mkdir()
        (self.folder / "tools/build").write_text('#!/bin/sh\nexec rt "$@"\n')
        (self.folder / "tools/build").chmod(0o755)
        shutil.copy(PROJECT / "crates.txt", self.folder)
        os.utime(self.folder / "crates.txt", (OLD, OLD))
        for crate in stands_on():
            self.source(crate).parent.mkdir(parents=True)
            self.source(crate).write_text("")
            os.utime(self.source(crate), (OLD, OLD))
        (self.folder / "mine.txt").write_text(SOURCE)

    def source(self, crate):
        """The path of a crate's source."""
        return self.folder / "crates" / crate / "src/deep/main.rt"

    def rt(self, script):
        """Makes `rt` a script, which notes each call in the file `calls`."""
        path = self.folder / "commands/rt"
        path.write_text(f'#!/bin/sh\necho "$@" >> {self.folder}/calls\n{script}')
        path.chmod(0o755)

    def calls(self):
        """The arguments of each call of `rt`."""
        path = self.folder / "calls"
        return path.read_text().splitlines() if path.exists() else []

    def program(self, name, script):
        """Makes a program of the project a script, which is newer than the sources."""
        path = self.folder / "target/bin" / name
        path.write_text(f"#!/bin/sh\n{script}\n")
        path.chmod(0o755)

    def built(self, when=None):
        """Puts the proved programs into the project, built at this time."""
        for name in BUILT:
            shutil.copy(PROJECT / "target/bin" / name, self.folder / "target/bin")
            os.utime(self.folder / "target/bin" / name, when and (when, when))

    def options(self, words):
        """The command line and the options of a process that runs the command with these words."""
        environment = {**os.environ, "PATH": f"{self.folder}/commands:/usr/bin:/bin"}
        return {"args": [sys.executable, "glintstool", *words], "cwd": self.folder, "env": environment}

    def run_command(self, *words, **more):
        """What the command gives: status, output, rows of errors."""
        done = subprocess.run(**self.options(words), capture_output=True, timeout=60, **more)
        return done.returncode, done.stdout.decode(), done.stderr.decode().splitlines()

    def begin(self, *words, **more):
        """A running process of the command; it is ended with the test."""
        process = subprocess.Popen(**self.options(words), stdout=subprocess.PIPE, stderr=subprocess.PIPE, **more)
        self.addCleanup(process.communicate)
        self.addCleanup(process.kill)
        return process

    def fifo(self, name):
        """The path of a new named pipe."""
        os.mkfifo(self.folder / name)
        return self.folder / name

    def row_from(self, stream):
        """The next row of an unfinished stream; fails where none comes."""
        row = b""
        while not row.endswith(b"\n"):
            ready, _, _ = select.select([stream], [], [], 20)
            self.assertTrue(ready, f"no row came after {row!r}")
            byte = os.read(stream.fileno(), 1)
            self.assertTrue(byte, f"the stream ended after {row!r}")
            row += byte
        return row.decode()[:-1]


class Crates(unittest.TestCase):
    def test_those_that_a_program_stands_on(self):
        for program in BUILT:
            expected = stands_on()[program] | {program}
            self.assertEqual(sorted(programs.crates_of([program])), sorted(expected))

    def test_of_several_programs_each_once(self):
        expected = stands_on()["listing"] | stands_on()["line_bytes"] | {"listing", "line_bytes"}
        self.assertEqual(sorted(programs.crates_of(["line_bytes", "listing"])), sorted(expected))

    def test_the_kit_is_not_among_them(self):
        self.assertFalse({"io", "libc"} & set(programs.crates_of(BUILT)))
        self.assertEqual(sorted(CRATES), sorted(programs.crates_of(BUILT)))
        self.assertEqual(sorted(BUILT), sorted(programs.PROGRAMS))

    def test_sources_are_files_of_these_crates(self):
        found = programs.sources()
        self.assertIn(PROJECT / "crates.txt", found)
        self.assertIn(PROJECT / "crates/tia/src/lib.rt", found)
        for program in BUILT:
            self.assertIn(PROJECT / "crates" / program / "src/main.rt", found)
        self.assertFalse([path for path in found if {"repeat_line", "chip_report", "specs"} & set(path.parts)])


class Answers(unittest.TestCase):
    def test_replay_is_what_the_programs_write(self):
        tape = assemble(SOURCE)
        written = subprocess.run([PROJECT / "target/bin/line_bytes"], input=tape, stdout=subprocess.PIPE, check=True).stdout
        self.assertEqual(programs.replay(tape), (lines_of(written), "cx 00 00 00 00 00 00 00 00"))
        self.assertEqual(programs.listing(tape), LISTING)

    def test_clocks_of_the_line_asked_for(self):
        tape = assemble("repeat 300\nline\nend\n")
        for number in (0, 1, 255, 256, 299):
            self.assertEqual(len(programs.clock_bytes(tape, number)), 228 * 38)
        self.assertEqual(programs.clock_bytes(tape, 300), b"")


class Stale(Project):
    def setUp(self):
        super().setUp()
        for name, path in (("PROJECT", ""), ("BIN", "target/bin"), ("CRATES", "crates.txt")):
            patched = mock.patch.object(programs, name, self.folder / path)
            patched.start()
            self.addCleanup(patched.stop)

    def test_missing(self):
        self.assertTrue(programs.is_stale())
        self.assertEqual(sorted(programs.missing()), sorted(BUILT))
        for program in BUILT:
            self.built()
            self.assertFalse(programs.is_stale())
            (self.folder / "target/bin" / program).unlink()
            self.assertTrue(programs.is_stale())
            self.assertEqual(programs.missing(), [program])

    def test_older_than_a_source_of_its_crates(self):
        self.built(OLD + 10)
        for crate in stands_on():
            os.utime(self.source(crate), (OLD + 20, OLD + 20))
            self.assertEqual(programs.is_stale(), crate in CRATES, crate)
            os.utime(self.source(crate), (OLD, OLD))
        self.assertFalse(programs.is_stale())

    def test_one_of_them_is_older(self):
        for program in BUILT:
            self.built(OLD + 10)
            os.utime(self.folder / "target/bin" / program, (OLD - 10, OLD - 10))
            self.assertTrue(programs.is_stale())

    def test_older_than_the_crates_file(self):
        self.built(OLD + 10)
        os.utime(self.folder / "crates.txt", (OLD + 20, OLD + 20))
        self.assertTrue(programs.is_stale())


class Building(Project):
    def test_nothing_is_said_where_nothing_is_to_be_built(self):
        self.built()
        self.rt("exit 1\n")
        self.assertEqual(self.run_command("list", "mine.txt"), (0, LISTING, []))
        self.assertEqual(self.calls(), [])

    def test_a_crate_at_a_time(self):
        self.rt("echo rt: a note\n" + PROVED + INSTALLED)
        status, output, errors = self.run_command("list", "mine.txt")
        self.assertEqual((status, output), (0, LISTING))
        self.assertEqual(FIRST.fullmatch(errors[0])[1], str(COUNT))
        told = [f"  {number} of {COUNT} crates proved: {crate}" for number, crate in enumerate(CRATES, start=1)]
        self.assertEqual(errors[1:-1], told)
        self.assertRegex(errors[-1], LAST)
        self.assertEqual(self.calls(), [BUILD])

    def test_crates_that_are_unchanged_count(self):
        self.rt("echo 'rt: laws proved (unchanged since it was last proved)'\n" + INSTALLED)
        self.assertEqual(self.run_command("list", "mine.txt")[2][1], f"  1 of {COUNT} crates proved: laws")

    def test_each_crate_is_told_when_it_is_proved(self):
        go_on = self.fifo("go_on")
        self.rt(f"echo 'rt: laws proved (0 s)'\nread line < {go_on}\n" + INSTALLED)
        process = self.begin("list", "mine.txt")
        self.assertRegex(self.row_from(process.stderr), FIRST)
        self.assertEqual(self.row_from(process.stderr), f"  1 of {COUNT} crates proved: laws")
        go_on.write_text("\n")
        self.assertRegex(self.row_from(process.stderr), LAST)
        self.assertEqual(process.communicate(timeout=20)[0].decode(), LISTING)

    def test_a_verb_that_needs_programs_builds_all_once(self):
        self.rt(INSTALLED)
        for words, expected in (
            (["list", "mine.txt"], [BUILD]),
            (["look", "mine.txt"], [BUILD]),
            (["step", "mine.txt", "--line", "0"], [BUILD]),
            (["picture", "mine.txt", "-o", "out.png"], [BUILD]),
            (["page", "mine.txt", "-o", "out.html"], [BUILD]),
            (["assemble", "mine.txt", "-o", "mine.tape"], []),
            (["disassemble", "mine.tape"], []),
        ):
            for path in [*(self.folder / "target/bin").iterdir(), *self.folder.glob("calls")]:
                path.unlink()
            self.assertEqual(self.run_command(*words)[0], 0, words)
            self.assertEqual(self.calls(), expected, words)

    def test_a_missing_program_is_put_back(self):
        self.built()
        (self.folder / "target/bin/clock_bytes").unlink()
        self.rt(INSTALLED)
        self.assertEqual(self.run_command("list", "mine.txt")[:2], (0, LISTING))
        self.assertEqual(self.calls(), [BUILD])
        self.assertEqual(programs.missing(), [])

    def test_a_build_that_leaves_no_program(self):
        self.rt(PROVED)
        status, output, errors = self.run_command("list", "mine.txt")
        self.assertEqual((status, output), (1, ""))
        message = f"'tools/build {BUILD}' left no line_bytes: remove the folder {self.folder}/target and call again"
        self.assertEqual(errors[-1], message)

    def test_stale_after_a_source_is_newer_and_fresh_after_the_build(self):
        self.built(OLD + 10)
        self.rt(INSTALLED + f"touch -d @{OLD + 10} target/bin/*\n")
        self.assertEqual(self.run_command("list", "mine.txt"), (0, LISTING, []))
        os.utime(self.source("tia"))
        self.assertEqual(len(self.run_command("list", "mine.txt")[2]), 2)
        self.assertEqual(self.run_command("list", "mine.txt"), (0, LISTING, []))
        self.assertEqual(len(self.calls()), 1)

    def test_rt_that_fails(self):
        self.rt(PROVED + "echo 'rt: FAILED: listing'\nexit 1\n")
        for words in (["list"], ["picture", "-o", "out.png"]):
            status, output, errors = self.run_command(*words, "mine.txt")
            self.assertEqual((status, output), (1, ""))
            message = f"the programs could not be built: run 'tools/build {BUILD}' in the folder {self.folder} to see why"
            self.assertEqual(errors[-1], message)
        self.assertFalse((self.folder / "out.png").exists())

    def test_rt_is_missing(self):
        for verb, more in (("list", []), ("look", []), ("step", ["--line", "0"])):
            self.assertEqual(self.run_command(verb, "mine.txt", *more), (1, "", [NO_RT]))

    def test_rt_is_missing_and_the_programs_are_old(self):
        self.built(OLD - 10)
        self.assertEqual(self.run_command("list", "mine.txt"), (0, LISTING, [AS_THEY_ARE]))

    def test_rt_is_missing_and_so_is_one_of_the_programs(self):
        self.built(OLD - 10)
        (self.folder / "target/bin/line_bytes").unlink()
        self.assertEqual(self.run_command("look", "mine.txt"), (1, "", [NO_RT]))

    def test_a_wrong_source_builds_nothing(self):
        self.rt(INSTALLED)
        (self.folder / "mine.txt").write_text("line\n 0 ENAM9 2\n")
        self.assertEqual(self.run_command("list", "mine.txt")[0], 1)
        self.assertEqual(self.calls(), [])

    def test_two_calls_at_once_build_once(self):
        go_on = self.fifo("go_on")
        self.rt(f"echo 'rt: laws proved (0 s)'\nread line < {go_on}\n" + INSTALLED)
        first = self.begin("list", "mine.txt")
        self.assertRegex(self.row_from(first.stderr), FIRST)
        second = self.begin("list", "mine.txt")
        self.assertEqual(self.row_from(second.stderr), WAITING)
        go_on.write_text("\n")
        for process in (first, second):
            output, errors = process.communicate(timeout=20)
            self.assertEqual((process.returncode, output.decode()), (0, LISTING))
        self.assertEqual(errors, b"")
        self.assertEqual(self.calls(), [BUILD])


class Bar(Project):
    def test_on_a_terminal(self):
        self.rt(PROVED + INSTALLED)
        ours, theirs = pty.openpty()
        done = subprocess.run(**self.options(["list", "mine.txt"]), stdout=subprocess.PIPE, stderr=theirs, timeout=60)
        os.close(theirs)
        text = read_terminal(ours)
        self.assertEqual((done.returncode, done.stdout.decode()), (0, LISTING))
        first, drawn, last, rest = text.split("\r\n")
        self.assertRegex(first, FIRST)
        self.assertRegex(last, LAST)
        self.assertEqual(rest, "")
        states = [state.replace("\x1b[K", "") for state in drawn.split("\r")[1:]]
        self.assertEqual(states[0], f"  [{'.' * 24}] 0 of {COUNT} crates proved, 0 s")
        self.assertRegex(states[-1], rf"\A  \[{'#' * 24}\] {COUNT} of {COUNT} crates proved, last card_bytes, \d s\Z")
        for state in states:
            self.assertRegex(state, rf"\A  \[#*\.*\] \d+ of {COUNT} crates proved(, last \w+)?, \d s\Z")
        filled = [state.count("#") for state in states]
        self.assertEqual(sorted(filled), filled)
        self.assertEqual(sorted(set(filled)), [24 * number // COUNT for number in range(COUNT + 1)])
        self.assertEqual({state.index("]") for state in states}, {27})
        self.assertLess(max(map(len, states)) + len("00"), 80)


class BrokenOff(Project):
    waiting = "echo begun >&3; exec sleep 40"

    def broken_off(self, script, interrupt):
        """Breaks off a build by `rt` as a script, which holds a pipe open as long as it or its children run."""
        alive = self.fifo("alive")
        self.rt(f"echo 'rt: laws proved (0 s)'\nexec 3> {alive}\n{script}\n")
        (self.folder / "out.png").write_bytes(b"before")
        options = {"start_new_session": True, "preexec_fn": interruptible}
        process = self.begin("picture", "mine.txt", "-o", "out.png", **options)
        with open(alive, "rb", buffering=0) as pipe:
            self.assertEqual(self.row_from(pipe), "begun")
            self.assertRegex(self.row_from(process.stderr), FIRST)
            self.assertEqual(self.row_from(process.stderr), f"  1 of {COUNT} crates proved: laws")
            interrupt(process.pid)
            output, errors = process.communicate(timeout=20)
            self.assertTrue(select.select([pipe], [], [], 20)[0], "rt still runs")
            self.assertEqual(pipe.read(), b"")
        self.assertEqual((process.returncode, output), (130, b""))
        self.assertNotIn(b"Traceback", errors)
        self.assertEqual((self.folder / "out.png").read_bytes(), b"before")
        self.assertEqual(list((self.folder / "target/bin").iterdir()), [])

    def test_by_the_terminal(self):
        self.broken_off(f"sh -c '{self.waiting}'\necho ended", lambda process: os.killpg(process, signal.SIGINT))

    def test_by_a_signal_to_the_command_alone(self):
        self.broken_off(self.waiting, lambda process: os.kill(process, signal.SIGINT))

    def test_the_next_call_builds(self):
        self.broken_off(self.waiting, lambda process: os.kill(process, signal.SIGINT))
        self.rt(INSTALLED)
        self.assertEqual(self.run_command("list", "mine.txt")[:2], (0, LISTING))


class Failing(Project):
    one_line = "head -c 320 /dev/zero"

    def setUp(self):
        super().setUp()
        self.built()

    def assert_fails(self, message, *words):
        """Asserts that the command writes nothing and ends with status 1 and this message."""
        self.assertEqual(self.run_command(*words), (1, "", [message]))

    def test_look(self):
        cases = [
            ("exit 3", "", "target/bin/line_bytes failed with status 3"),
            ("kill -9 $$", "", "target/bin/line_bytes failed with status -9"),
            ("printf 0", "", "target/bin/line_bytes: found 1 bytes: expected whole lines of 320"),
            ("head -c 160 /dev/zero", "", "target/bin/line_bytes: found 160 bytes: expected whole lines of 320"),
            (self.one_line, "printf 'line\\n'; exit 4", "target/bin/listing failed with status 4"),
            (self.one_line, "printf 'line\\ncx 0\\n'", "the programs disagree: line_bytes ran 1 lines, listing 0"),
            (self.one_line, "printf 'line\\n0\\nx\\n'", NO_END.format("'x'")),
            ("", "", NO_END.format("''")),
        ]
        for line_bytes, listing, message in cases:
            self.program("line_bytes", line_bytes)
            self.program("listing", listing)
            self.assert_fails(message, "look", "mine.txt")

    def test_the_other_verbs(self):
        self.program("line_bytes", self.one_line)
        self.program("listing", "printf 'line\\n0\\nx\\n'")
        self.program("clock_bytes", "head -c 8664 /dev/zero")
        for words in (["list"], ["picture", "-o", "out"], ["page", "-o", "out"], ["step", "--line", "0"]):
            self.assert_fails(NO_END.format("'x'"), *words, "mine.txt")
        self.program("listing", "")
        self.assert_fails(NO_END.format("''"), "list", "mine.txt")
        self.assertFalse((self.folder / "out").exists())

    def test_records_that_are_not_whole(self):
        self.program("clock_bytes", "head -c 38 /dev/zero")
        self.program("listing", f"cat <<'END'\n{LISTING}END")
        self.assert_fails("target/bin/clock_bytes: found 38 bytes: expected 228 records of 38", "step", "--line", "0", "mine.txt")

    def test_cards_that_are_not_whole(self):
        for count in (0, 318, 320):
            self.program("card_bytes", f"head -c {count} /dev/zero")
            self.assert_fails(f"target/bin/card_bytes: found {count} bytes: expected 319", "cards")
        self.program("card_bytes", "exit 3")
        self.assert_fails("target/bin/card_bytes failed with status 3", "cards")

    def test_a_program_that_is_none(self):
        self.program("listing", "")
        (self.folder / "target/bin/listing").write_bytes(b"\0\1\2\3")
        self.assert_fails("target/bin/listing: Exec format error", "list", "mine.txt")

    def test_refusals_are_missing(self):
        (self.folder / "docs/REFUSALS.md").unlink()
        self.assert_fails("docs/REFUSALS.md: No such file or directory", "look", "mine.txt")

    def test_a_failure_is_raised_for_a_program_that_is_missing(self):
        with mock.patch.object(programs, "BIN", self.folder / "none"), self.assertRaisesRegex(Failure, "^target/bin/listing: "):
            programs.answer("listing", b"")


class Rows(unittest.TestCase):
    def test_whole_rows_as_they_come(self):
        ticks = []
        reader, writer = os.pipe()
        with open(reader, "rb", buffering=0) as pipe:
            rows = programs.rows_from(pipe, lambda: ticks.append(time.monotonic()))
            os.write(writer, b"one\ntwo\nthr")
            self.assertEqual([next(rows), next(rows)], ["one", "two"])
            os.write(writer, b"ee\n\xff\nlast")
            os.close(writer)
            self.assertEqual(list(rows), ["three", "\ufffd"])
        self.assertGreaterEqual(len(ticks), 3)


if __name__ == "__main__":
    unittest.main()
