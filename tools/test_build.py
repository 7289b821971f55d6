"""Tests of building the programs, with a stand-in for the prover. Run: python3 tools/test_build.py"""

import os
import shutil
import signal
import subprocess
import sys
import tempfile
import unittest
from pathlib import Path

sys.dont_write_bytecode = True

PROJECT = Path(__file__).resolve().parent.parent
# What stands in for the prover: it says what today's says of a crate below and of the program's, and leaves a program in out/.
PROVER = """#!/bin/sh
name=$(basename "$PWD")
echo "$1 $name" >>../../calls
echo "the program's own output"
{text}
mkdir -p out
echo "#!/bin/sh" >out/$name
"""
FROM_NOTHING = """echo "fn base::f: proved" >&2
echo "crate base: modules loaded=3 checked=8" >&2
echo "logic=proved functions=1" >&2
echo "crate $name: modules loaded=3 checked=8" >&2
echo "logic=proved functions=2" >&2"""
UNCHANGED = "echo 'rt: nothing has changed since the last proved build, so nothing is checked now' >&2"
NOT_PROVED = "echo 'crate base: modules loaded=3 checked=8' >&2; echo logic=not-proved >&2; exit 1"
WAITING = "echo 'crate base: x' >&2; exec 3>../../alive; exec sleep 40"


class Build(unittest.TestCase):
    def setUp(self):
        room = tempfile.TemporaryDirectory()
        self.addCleanup(room.cleanup)
        self.root = Path(room.name).resolve()
        shutil.copytree(PROJECT / "tools", self.root / "tools", ignore=shutil.ignore_patterns("test_*", "__pycache__"))
        (self.root / "crates.txt").write_text("base:\none: base\ntwo: base\n")
        for crate, file in (("base", "lib.rt"), ("one", "main.rt"), ("two", "main.rt")):
            (self.root / "crates" / crate / "src").mkdir(parents=True)
            (self.root / "crates" / crate / "src" / file).write_text("")
        (self.root / "bin").mkdir()

    def prover(self, text):
        """Makes the stand-in say this."""
        (self.root / "bin/rt").write_text(PROVER.replace("{text}", text))
        (self.root / "bin/rt").chmod(0o755)

    def options(self, names):
        """The command line and the options of a process that builds these programs."""
        environment = {**os.environ, "PATH": f"{self.root}/bin:/usr/bin:/bin"}
        return {"args": [sys.executable, str(self.root / "tools/build"), *names], "cwd": "/", "env": environment, "text": True}

    def build(self, *names):
        """Exit status, the rows printed, and what is said on standard error."""
        done = subprocess.run(**self.options(names), capture_output=True, timeout=60)
        return done.returncode, done.stdout.splitlines(), done.stderr

    def told(self, rows):
        """The rows on crates among those printed."""
        return [row for row in rows if row.startswith("rt: ") and " proved" in row and "nothing" not in row]

    def test_from_nothing(self):
        self.prover(FROM_NOTHING)
        code, rows, _ = self.build("one", "two")
        self.assertEqual((code, self.told(rows)), (0, ["rt: base proved", "rt: one proved", "rt: two proved"]))
        self.assertIn("fn base::f: proved", rows)
        self.assertNotIn("the program's own output", rows)
        for name in ("one", "two"):
            self.assertEqual((self.root / "target/bin" / name).read_text(), "#!/bin/sh\n")
            self.assertTrue(os.access(self.root / "target/bin" / name, os.X_OK))
        self.assertEqual((self.root / "calls").read_text().splitlines(), ["run one", "run two"])
        self.assertEqual(sorted(path.name for path in (self.root / "target/bin").iterdir()), ["one", "two"])

    def test_unchanged(self):
        self.prover(UNCHANGED)
        code, rows, _ = self.build("two")
        said = [f"rt: {crate} proved (unchanged since it was last proved)" for crate in ("base", "two")]
        self.assertEqual((code, self.told(rows)), (0, said))
        self.assertTrue((self.root / "target/bin/two").exists())

    def test_not_proved(self):
        self.prover(NOT_PROVED)
        code, rows, _ = self.build("one", "two")
        self.assertEqual((code, self.told(rows), rows[-1]), (1, [], "rt: FAILED: one"))
        self.assertFalse((self.root / "target").exists())
        self.assertEqual((self.root / "calls").read_text().splitlines(), ["run one"])

    def test_broken_off(self):
        os.mkfifo(self.root / "alive")
        self.prover(WAITING)
        process = subprocess.Popen(**self.options(["one"]), stdout=subprocess.PIPE, stderr=subprocess.DEVNULL)
        self.addCleanup(process.communicate)
        self.addCleanup(process.kill)
        with open(self.root / "alive", "rb") as pipe:
            process.send_signal(signal.SIGTERM)
            self.assertEqual(pipe.read(), b"")
        self.assertEqual(process.wait(timeout=20), 143)

    def test_what_cannot_be_built(self):
        self.prover(FROM_NOTHING)
        for names in ((), ("base",), ("none",)):
            self.assertEqual(self.build(*names)[0], 2, names)
        (self.root / "bin/rt").unlink()
        self.assertEqual(self.build("one")[2].split(":")[1], " 'rt' is missing")


if __name__ == "__main__":
    unittest.main()
