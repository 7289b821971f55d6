"""Tests of edits: reading must-fail edits, bringing a copy up to date, reading the prover's log, and the command itself, with
a stand-in for the prover. Run: python3 tools/test_edits.py"""

import os
import shutil
import subprocess
import sys
import tempfile
import unittest
from functools import partial
from pathlib import Path

sys.dont_write_bytecode = True

from edit_file import BadEdit, Replacement, applied, replacements, text_in
from prover_copy import Copy, listed, mirror, standing_on
from prover_log import Verdict, judged

PROJECT = Path(__file__).resolve().parent.parent
PROOF = "./proofs/a/f/Answers.antt"
FOLLOWS = f"{PROOF}:50:5: error: 1 declaration that depends on `line`, which was rejected, was not checked: returns\n"
UNFOLDED = "./proofs/Laws.antt:3:4: error: `law`: `f` cannot be unfolded because it was not admitted: it has an error\n"
REFUTED = f"{PROOF}:30:5: error: `returns`: computed as far as they go, the two types differ where one has `1`\n  (expected)\n"
MISSING = f"{PROOF}:33:13: error: `add`: `goal.add`: module `p.f.Goals` has no `add` that can be named from here\n"
ENDED = "fn tape::a::f: not proved\nlogic=not-proved\n"

# What stands in for the prover: it says of a crate's only file what the text of the file is about.
PROVER = """#!/bin/sh
echo "$1 $(basename "$PWD")" >>../../calls
mkdir -p out
text=$(cat src/lib.rt)
case $text in
*below*) echo "rt: the library base did not build, so nothing above it was checked"; exit 1 ;;
*wrong*) echo "./proofs/f/Answers.antt:3:4: error: \\`returns\\`: \\`omega\\`: the goal does not follow"; exit 1 ;;
*shape*) echo "./proofs/f/Answers.antt:3:4: error: \\`returns\\`: record \\`r\\` has no field \\`if1\\`"; exit 1 ;;
*) echo logic=proved ;;
esac
"""


def made(text, files):
    """The files that an edit changes."""
    return applied(text, files.get)


class EditFiles(unittest.TestCase):
    def test_comments_and_several_files(self):
        text = "Why, in words.\nold ones\nfile: src/a.rt\nold: one\nnew: two\nold:  x\nnew:\nfile: specs/A.antt\nold: 1\nnew:2"
        first = [Replacement(5, "src/a.rt", "one", "two"), Replacement(7, "src/a.rt", " x", "")]
        self.assertEqual(replacements(text), [*first, Replacement(10, "specs/A.antt", "1", "2")])
        files = {"src/a.rt": "one x\n", "specs/A.antt": "is 1\n", "src/b.rt": "one\n"}
        self.assertEqual(made(text, files), {"src/a.rt": "two\n", "specs/A.antt": "is 2\n"})

    def test_a_later_replacement_sees_the_earlier(self):
        text = "file: src/a.rt\nold: one\nnew: two\nold: two\nnew: three\n"
        self.assertEqual(made(text, {"src/a.rt": "one\n"}), {"src/a.rt": "three\n"})

    def test_bad_edits(self):
        files = {"src/a.rt": "one one\n", "data/a": "one\n"}
        for text, row, why in (
            ("file: src/a.rt\nold: two\nnew: 2\n", 3, "'old: two' is not in src/a.rt"),
            ("file: src/a.rt\nold: one\nnew: 2\n", 3, "'old: one' is 2 times in src/a.rt"),
            ("file: src/a.rt\nold:one\nnew: 2\n", 3, "'new:' has no 'old: ..' before it"),
            ("file: src/b.rt\nold: one\nnew: 2\n", 3, "'file: src/b.rt' names no file of the crate"),
            ("file: data/a\nold: one\nnew: 2\n", 3, "'file: data/a' names no file under src/, specs/, proofs/"),
            ("file: src/../src/a.rt\nold: one\nnew: 2\n", 3, "'file: src/../src/a.rt' names no file under src/, specs/, proofs/"),
            ("file: src/a.rt\nold: one\n", 0, "it has no rows 'old: ..' and 'new: ..'"),
        ):
            with self.subTest(text=text), self.assertRaises(BadEdit) as bad:
                made(text, files)
            self.assertEqual((bad.exception.row, str(bad.exception)), (row, why))

    def test_every_edit_of_the_project_can_be_made(self):
        for path in sorted(PROJECT.glob("crates/*/must-fail/*.edit")):
            with self.subTest(edit=str(path.relative_to(PROJECT))):
                self.assertTrue(applied(path.read_text("utf-8"), partial(text_in, path.parent.parent)))


class Logs(unittest.TestCase):
    def outcome(self, log):
        """The outcome that a log with exit status 1 gives."""
        return judged(1, log).outcome

    def test_the_first_error_that_does_not_follow(self):
        verdict = judged(1, UNFOLDED + FOLLOWS + REFUTED + ENDED)
        message = "`returns`: computed as far as they go, the two types differ where one has `1` (expected)"
        self.assertEqual(verdict, Verdict("refused", "proofs/a/f/Answers.antt:30", message))

    def test_hollow(self):
        for message in (
            "module `p.f` has no `Given` that can be named from here",
            "`returns`: record `p.Lts.After-known`\n  has no field `if1`",
            "`law`: `first` is not a field of record `Form`",
            "`returns`: `bad_line` is not in scope; did you mean `bad_length`?",
            "`returns`: no constructor `Cut` is in scope",
            "`sub`: this pattern needs a function (or path) type to bind, but the signature at this point is `x`",
        ):
            with self.subTest(message=message):
                self.assertEqual(self.outcome(f"{FOLLOWS}{PROOF}:1:2: error: {message}\n{ENDED}"), "hollow")

    def test_what_is_said_after_the_first_error(self):
        self.assertEqual(judged(1, MISSING + REFUTED + ENDED).outcome, "hollow")
        later = judged(1, REFUTED + MISSING + ENDED)
        self.assertEqual((later.outcome, later.misfit), ("refused", "proofs/a/f/Answers.antt:33"))
        self.assertEqual(judged(1, REFUTED + FOLLOWS).misfit, "")

    def test_a_hint_is_no_misfit(self):
        self.assertEqual(self.outcome(REFUTED + "  `w` is not in scope here, so what is shown does not paste back\n"), "refused")

    def test_no_program(self):
        for place, message in (
            ("src/a.rt", "error[unknown-name]: cannot find value `b` in this scope"),
            ("src/a.rt", "error: `ensures-1`: the two types are `Bool` (expected) and `ℕ` (found)"),
            ("specs/A.antt", "error: `f`: `eqx` is not in scope"),
            ("specs/A.antt", "error: `)` cannot continue the declaration here"),
        ):
            with self.subTest(message=message):
                self.assertEqual(self.outcome(f"{place}:1:2: {message}\n{ENDED}"), "no program")

    def test_a_definition_of_which_a_fact_fails(self):
        log = "./specs/Cases.antt:67:5: error: `one`: the two sides `true` and `false` differ\n"
        self.assertEqual(judged(1, log).said(), "refused: specs/Cases.antt:67: `one`: the two sides `true` and `false` differ")

    def test_functions_without_answers(self):
        note = "note: src/a.rt:44:1: it is not proved that what the function ensures holds when it returns (`returns`)\n"
        alone = f"fn tape::a::f: no proof: expected answers in {PROOF}"
        fact = judged(1, f"{FOLLOWS}{note}{alone}; `search` did not prove `returns`; it calls `tape::g`, which is not proved\nlogic=not-proved\n")
        self.assertEqual(fact, Verdict("refused", "src/a.rt:44", "fn tape::a::f: no proof: `search` did not prove `returns`"))
        two = f"struct tape::a::S: proved\n{note.replace('44', '40')}{note}{alone}; `search` did not prove `add`, `returns`\n"
        self.assertEqual(judged(1, f"{note.replace('44', '7')}fn tape::a::e: proved\n{two}").where, "src/a.rt:40")
        measure = "fn tape::a::f: no proof: expected a measure in ./proofs/a/f/Invariants.antt"
        form = judged(1, f"{FOLLOWS}{measure}\nlogic=not-proved\n")
        self.assertEqual((form.outcome, form.where), ("hollow", "proofs/a/f/Invariants.antt"))
        self.assertEqual(judged(1, f"{measure}\n{alone}; `search` did not prove `add`\n").outcome, "refused")

    def test_what_is_said_so_far_is_said_again(self):
        self.assertEqual(judged(1, f"so far: {MISSING}{REFUTED}").outcome, "refused")

    def test_passed(self):
        self.assertEqual(judged(0, "logic=proved").outcome, "passed")

    def test_unknown(self):
        self.assertEqual(judged(2, "a\nrt: no room\n\n").said(), "unknown: exit status 2: rt: no room")
        self.assertEqual(judged(3, REFUTED).outcome, "unknown")
        self.assertEqual(judged(1, "").said(), "unknown: exit status 1")

    def test_a_message_is_shortened(self):
        said = judged(1, f"{PROOF}:1:2: error: `f`: at `lib.Dec.eqb (c.before.before.args) {'x' * 300}`\n").said(40)
        self.assertEqual(said, "refused: proofs/a/f/Answers.antt:1: `f`: at `eqb (c.before.args) xxxxxxxxx..")


class Copies(unittest.TestCase):
    def setUp(self):
        self.room = tempfile.TemporaryDirectory()
        self.addCleanup(self.room.cleanup)
        self.root = Path(self.room.name)

    def put(self, name, text):
        """Writes a file of the working tree."""
        path = self.root / name
        path.parent.mkdir(parents=True, exist_ok=True)
        path.write_text(text, "utf-8")

    def there(self, folder):
        """The files below a folder, with their texts."""
        return {str(p.relative_to(folder)): p.read_text("utf-8") for p in folder.rglob("*") if p.is_file()}

    def test_the_crates_that_a_crate_stands_on(self):
        self.put("crates.txt", "# All crates.\nlaws:\n\ntape: laws  # a library\nshow : tape std\nother: laws\n")
        crates = listed(self.root)
        self.assertEqual(list(crates), ["laws", "tape", "show", "other"])
        self.assertEqual(standing_on("show", crates), ["show", "tape", "laws"])

    def test_a_folder_is_brought_up_to_date(self):
        self.put("a/src/one.rt", "1")
        self.put("a/src/two.rt", "2")
        self.put("a/proofs/f/Answers.antt", "p")
        self.put("a/must-fail/x.edit", "e")
        mirror(self.root / "a", self.root / "b")
        self.assertEqual(self.there(self.root / "b"), {"src/one.rt": "1", "src/two.rt": "2", "proofs/f/Answers.antt": "p"})
        before = (self.root / "b/src/one.rt").stat().st_mtime_ns
        shutil.rmtree(self.root / "a/proofs/f")
        self.put("a/proofs/f", "now a file")
        self.put("a/src/two.rt", "two")
        mirror(self.root / "a", self.root / "b")
        self.assertEqual(self.there(self.root / "b"), {"src/one.rt": "1", "src/two.rt": "two", "proofs/f": "now a file"})
        self.assertEqual((self.root / "b/src/one.rt").stat().st_mtime_ns, before)

    def test_a_copy_is_brought_up_to_date(self):
        self.put("crates.txt", "laws:\ntape: laws io\nother:\nold:\n")
        for crate in ("laws", "tape", "other", "old"):
            self.put(f"crates/{crate}/src/lib.rt", crate)
        copy = Copy(self.root / "target/edits/0")
        copy.update(self.root, ["tape", "old"], fresh=False)
        self.put("target/edits/0/crates/tape/out/made", "kept")
        self.put("crates/tape/out/made", "not copied")
        self.put("target/edits/0/crates/tape/src/lib.rt", "left by a run that was stopped")
        self.put("crates.txt", "laws:\ntape: laws io\nother:\n")
        copy.update(self.root, ["tape"], fresh=False)
        crates = {f"crates/{name}/src/lib.rt": name for name in ("laws", "tape")}
        crates["crates.txt"] = "laws:\ntape: laws io\n"  # the prover wants each crate that is listed
        self.assertEqual(self.there(copy.folder), {**crates, "crates/tape/out/made": "kept"})
        copy.update(self.root, ["tape"], fresh=True)
        self.assertEqual(self.there(copy.folder), crates)

    def test_a_copy_is_for_one_run(self):
        first, second = (Copy(self.root / "0") for _ in range(2))
        self.assertTrue(first.take())
        self.assertFalse(second.take())
        first.lock.close()
        self.assertTrue(second.take())
        second.lock.close()


class Command(unittest.TestCase):
    def setUp(self):
        self.room = tempfile.TemporaryDirectory()
        self.addCleanup(self.room.cleanup)
        self.root = Path(self.room.name)
        shutil.copytree(PROJECT / "tools", self.root / "tools", ignore=shutil.ignore_patterns("test_*", "__pycache__"))
        (self.root / "crates.txt").write_text("base:\ntop: base io\n")
        for crate in ("base", "top"):
            (self.root / "crates" / crate / "src").mkdir(parents=True)
            (self.root / "crates" / crate / "must-fail").mkdir()
            (self.root / "crates" / crate / "src/lib.rt").write_text("fn f: right\n")
        (self.root / "bin").mkdir()
        (self.root / "bin/rt").write_text(PROVER)
        (self.root / "bin/rt").chmod(0o755)

    def edit(self, crate, label, new):
        """Writes an edit of a crate."""
        (self.root / "crates" / crate / "must-fail" / f"{label}.edit").write_text(f"file: src/lib.rt\nold: right\nnew: {new}\n")

    def run_it(self, *arguments, path=None):
        """Exit status, the rows printed without the summary's first, and what is said on standard error."""
        environment = {**os.environ, "PATH": path or f"{self.root / 'bin'}:{os.environ['PATH']}"}
        command = [sys.executable, str(self.root / "tools/edits"), *arguments]
        done = subprocess.run(command, cwd=self.root, env=environment, capture_output=True, text=True)
        return done.returncode, [row for row in done.stdout.splitlines() if "logs in" not in row], done.stderr

    def test_all_refused(self):
        for number in range(5):
            self.edit("top", f"mistake_{number}", f"wrong {number}")
        self.edit("base", "mistake", "wrong")
        code, rows, _ = self.run_it()
        said = "refused: proofs/f/Answers.antt:3: `returns`: `omega`: the goal does not follow"
        labels = ["base/mistake", *(f"top/mistake_{number}" for number in range(5))]
        self.assertEqual((code, sorted(rows)), (0, [f"{label}: {said}" for label in labels]))
        for copy in ("0", "1"):
            self.assertEqual((self.root / "target/edits" / copy / "crates/top/src/lib.rt").read_text(), "fn f: right\n")
        self.assertTrue((self.root / "target/edits/logs/top/mistake_4.log").read_text().endswith("does not follow\n"))

    def test_labels(self):
        for label in ("one", "two", "three"):
            self.edit("top", label, "wrong")
        code, rows, _ = self.run_it("top", "--jobs", "1", "two", "one.edit")
        self.assertEqual((code, [row.partition(":")[0] for row in rows]), (0, ["top/two", "top/one"]))
        self.assertEqual((self.root / "target/edits/0/calls").read_text().split("\n"), ["check top"] * 3 + [""])

    def test_each_that_is_not_refused(self):
        self.edit("top", "hollow", "shape")
        self.edit("top", "passed", "still right")
        (self.root / "crates/top/must-fail/gone.edit").write_text("file: src/lib.rt\nold: nowhere\nnew: x\n")
        code, rows, _ = self.run_it("top")
        self.assertEqual(code, 1)
        self.assertEqual(sorted(row for row in rows if row.startswith("top/")), [
            "top/gone: bad edit: must-fail/gone.edit:3: 'old: nowhere' is not in src/lib.rt",
            "top/hollow: hollow: proofs/f/Answers.antt:3: `returns`: record `r` has no field `if1`",
            "top/passed: passed",
        ])  # fmt: skip
        self.assertEqual([row.partition(":")[0] for row in rows[3:]], ["hollow", "passed", "bad edit"])

    def test_a_crate_that_is_not_proved(self):
        self.edit("top", "mistake", "wrong")
        (self.root / "crates/top/src/lib.rt").write_text("fn f: right and wrong\n")
        code, rows, said = self.run_it("top")
        self.assertEqual((code, rows), (2, []))
        self.assertIn("error: the crate 'top' is not proved as it stands (refused: proofs/f/Answers.antt:3: ", said)
        self.assertIn("mend it first, with 'rt check' in crates/top", said)
        (self.root / "crates/top/src/lib.rt").write_text("fn f: right, but for what is below\n")
        self.assertIn("mend it first, with 'rt check' in crates/base", self.run_it("top")[2])

    def test_what_cannot_be_tried(self):
        self.assertEqual(self.run_it()[2], "error: no crate has must-fail edits: write one as crates/CRATE/must-fail/LABEL.edit\n")
        self.edit("top", "mistake", "wrong")
        for arguments, message in (
            (["tip"], "error: no crate with must-fail edits is called 'tip': expected top\n"),
            (["base"], "error: no crate with must-fail edits is called 'base': expected top\n"),
            (["top", "mistakes"], "error: no edit of crate 'top' is called 'mistakes': expected mistake\n"),
        ):
            self.assertEqual(self.run_it(*arguments), (2, [], message))
        code, _, said = self.run_it("top", path=str(self.root / "tools"))
        self.assertEqual((code, said.split(":")[1]), (2, " 'rt' is missing"))
        self.assertEqual(self.run_it("--jobs", "0")[0], 2)


if __name__ == "__main__":
    unittest.main()
