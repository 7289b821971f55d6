"""Tests that the documents name what is there: must-fail edits, definitions, theorems and functions.
Run: python3 tools/test_docs.py"""

import re
import sys
import unittest
from pathlib import Path

sys.dont_write_bytecode = True

PROJECT = Path(__file__).resolve().parent.parent
DOCS = PROJECT / "docs"
# Documents whose quoted names are held to the tree. Landing notes are left out: they tell of a tree that was.
NAMING = ("PROMISES.md", "TRACE.md", "DECISIONS.md")
QUOTED = re.compile(r"`([^`\s]+)`")
# A quoted name: of a definition, a theorem, a function, a crate or an edit. Texts that are printed or written otherwise are none.
NAME = re.compile(r"[A-Za-z][\w-]*(?:::\w+)?")
WORD = re.compile(r"[A-Za-z][\w·'-]*")
# What a comment is, by the file's kind.
COMMENT = {".rt": re.compile("//.*"), ".antt": re.compile("--.*"), ".rs": re.compile("//.*"), ".py": re.compile("#.*")}
# Quoted names of commands that the project does not hold.
COMMANDS = {"rustc"}


def edits():
    """The must-fail edits by their names, with the crates that have one of that name."""
    found = {}
    for path in PROJECT.glob("crates/*/must-fail/*.edit"):
        found.setdefault(path.stem, set()).add(path.parts[-3])
    return found


def words(folder):
    """Every word of a folder's files but for their comments, and the names of these files and of their folders."""
    found = set()
    for path in (PROJECT / folder).rglob("*"):
        found.add(path.stem)
        if path.suffix in COMMENT:
            found.update(WORD.findall(COMMENT[path.suffix].sub("", path.read_text("utf-8"))))
    return found


def rows(text, heading):
    """The cells of the rows of every table whose heading row has this text."""
    found = []
    inside = False
    for row in text.splitlines():
        if not row.startswith("|"):
            inside = False
        elif heading in row:
            inside = True
        elif inside and not row.startswith("|---"):
            found.append([cell.strip() for cell in row.strip("|").split("|")])
    return found


class Documents(unittest.TestCase):
    def test_every_edit_is_named(self):
        named = set(QUOTED.findall((DOCS / "PROMISES.md").read_text("utf-8")))
        self.assertEqual(sorted(set(edits()) - named), [])

    def test_two_wrong_programs_of_each_call_are_tried(self):
        calls = rows((DOCS / "PROMISES.md").read_text("utf-8"), "wrong programs ruled out")
        self.assertGreaterEqual(len(calls), 16)
        there = edits()
        for cells in calls:
            with self.subTest(call=cells[0]):
                programs = cells[5].split("; ")
                self.assertGreaterEqual(len(programs), 2)
                for program in programs:
                    tried = re.search(r"\(`(\w+)`\)$", program)
                    self.assertTrue(tried and tried[1] in there, program)

    def test_names_are_there(self):
        there = words("crates") | words("second") | words("classroom") | words("tools") | set(edits()) | COMMANDS
        for name in NAMING:
            quoted = [name for name in QUOTED.findall((DOCS / name).read_text("utf-8")) if NAME.fullmatch(name)]
            self.assertGreater(len(quoted), 50)
            missing = sorted({one for one in quoted if not set(one.split("::")) <= there})
            with self.subTest(document=name):
                self.assertEqual(missing, [])


class Decisions(unittest.TestCase):
    def setUp(self):
        self.text = (DOCS / "DECISIONS.md").read_text("utf-8")

    def test_numbered_in_order(self):
        numbers = [int(number) for number in re.findall(r"^(\d+)\. \*\*", self.text, re.MULTILINE)]
        self.assertEqual(numbers, list(range(1, len(numbers) + 1)))

    def test_part_one_names_nothing_of_the_code(self):
        parts = self.text.split("\n# Part ")
        self.assertEqual(len(parts), 3)
        self.assertNotIn("`", parts[1])
        # A name that is made of several words cannot be taken for plain English; one of them is the client's own word.
        names = {word for word in words("crates") if re.search(r"[a-z][A-Z]|\w[_·-]\w", word)} - {"read-out"}
        self.assertGreater(len(names), 500)
        self.assertEqual(sorted(set(WORD.findall(parts[1])) & names), [])


if __name__ == "__main__":
    unittest.main()
