"""Tests that README.md shows what its commands print; they build their programs where these are missing.
Run: python3 tools/test_readme.py"""

import re
import subprocess
import sys
import tempfile
import unittest
from pathlib import Path

sys.dont_write_bytecode = True
sys.path.insert(0, str(Path(__file__).resolve().parent.parent))

from classroom.television import pixels_of

PROJECT = Path(__file__).resolve().parent.parent
INDENT = "    "


def blocks(text):
    """The indented blocks of a text, without the indent and without blank rows at their ends."""
    rows = [row.removeprefix(INDENT) if row.startswith(INDENT) else "" if not row else None for row in text.splitlines()]
    found = [[]]
    for row in rows:
        if row is None:
            found.append([])
        else:
            found[-1].append(row)
    return [block for block in ("\n".join(rows).strip("\n") for rows in found) if block]


def source(readme):
    """The lesson of the README: the block that begins with its file's name."""
    return next(block for block in readme if block.startswith("; mine.txt"))


def commands(readme):
    """The commands that the README shows with their output: pairs of both."""
    return [tuple(block.removeprefix("$ ").split("\n", 1)) for block in readme if block.startswith("$ ")]


def run(command, folder):
    """What a command prints in the project's folder, with mine.txt in another one, whose name is left out again."""
    here = command.replace("mine.txt", str(Path(folder) / "mine.txt"))
    done = subprocess.run(["bash", "-c", here], cwd=PROJECT, capture_output=True, text=True)
    return (done.stdout + done.stderr).replace(f"{folder}/", "")


class Readme(unittest.TestCase):
    def setUp(self):
        self.readme = blocks((PROJECT / "README.md").read_text("utf-8"))

    def test_commands_print_what_is_shown(self):
        self.assertEqual(len(commands(self.readme)), 3)
        with tempfile.TemporaryDirectory() as folder:
            (Path(folder) / "mine.txt").write_text(source(self.readme) + "\n")
            for command, shown in commands(self.readme):
                with self.subTest(command=command):
                    self.assertEqual(run(command, folder).rstrip("\n"), shown)

    def test_the_two_commands(self):
        look, picture = [block for block in self.readme if block.startswith("./glintstool ")]
        self.assertEqual(run(look, "."), (PROJECT / "lessons/05-moving-right.picture").read_text("utf-8"))
        self.assertTrue(picture.endswith(" -o mine.png"))
        with tempfile.TemporaryDirectory() as folder:
            self.assertEqual(run(picture.replace("mine.png", f"{folder}/mine.png"), folder), "")
            drawn = pixels_of((Path(folder) / "mine.png").read_bytes())
        self.assertEqual(drawn, pixels_of((PROJECT / "lessons/15-landscape.png").read_bytes()))

    def test_the_lesson_has_eleven_lines(self):
        self.assertEqual(len(source(self.readme).split("\n")), 11)

    def test_the_suggested_change(self):
        with tempfile.TemporaryDirectory() as folder:
            (Path(folder) / "mine.txt").write_text(source(self.readme).replace("+7", "-1") + "\n")
            listing = run("./glintstool list mine.txt", folder).split("\n")
        self.assertEqual([row.split()[3] for row in listing[1:5]], ["-", "36", "37", "37"])

    def test_every_link_leads_somewhere(self):
        for file in [PROJECT / "README.md", PROJECT / "CONTRIBUTING.md", *PROJECT.glob("*/*.md")]:
            for link in re.findall(r"\]\(([^)#]+)(?:#[^)]*)?\)", file.read_text("utf-8")):
                with self.subTest(file=file.name, link=link):
                    self.assertTrue("://" in link or (file.parent / link).exists())


if __name__ == "__main__":
    unittest.main()
