"""Tests of the classroom cards: their entries by the rules of the chip's papers, and their layout on paper. Needs target/bin/card_bytes.
Run: python3 -m unittest classroom.tests.test_cards"""

import re
import sys
import unittest
from pathlib import Path

sys.dont_write_bytecode = True

from classroom import programs
from classroom.cards import COUNTS, columns, pages_of

PROJECT = Path(__file__).resolve().parent.parent.parent
WIDEST, LONGEST = 77, 60  # characters of a row and rows of a page that paper has room for
ENTRY = re.compile(r"([0-9A-F]{2}) ([01]{8}) ([01]{8}) ([0-9A-F]{2})")


def step(value):
    """One step of the counter without its wrap: every bit one place right, the new leftmost 1 where the two rightmost are equal."""
    return ("1" if value[4] == value[5] else "0") + value[:5]


def entries_of(page, pattern):
    """The entries of a page, column by column: what the pattern finds in each row, the first of each row first."""
    rows = [re.findall(pattern, row) for row in page]
    return [row[at] for at in range(3) for row in rows if at < len(row)]


class Cards(unittest.TestCase):
    @classmethod
    def setUpClass(cls):
        cls.pages = pages_of(programs.card_bytes())

    def test_the_counter_has_63_values_by_its_rule(self):
        found = entries_of(self.pages[0], r"(\d+) ([01]{6})(?!\d)")
        self.assertEqual([int(count) for count, _ in found], list(range(COUNTS)))
        values = [value for _, value in found]
        self.assertEqual(values[0], "000000")
        self.assertEqual([step(value) for value in values], values[1:] + values[:1])
        self.assertEqual([values[count] for count in (4, 16, 39, 56, 62)], ["111100", "011100", "101101", "010100", "000001"])

    def test_the_mirrored_bytes_are_the_256_read_backwards(self):
        found = [entry for page in self.pages[1:] for entry in entries_of(page, ENTRY)]
        self.assertEqual([int(address, 16) for address, _, _, _ in found], list(range(256)))
        for address, bits, mirrored, data in found:
            self.assertEqual((int(bits, 2), int(mirrored, 2)), (int(address, 16), int(data, 16)))
            self.assertEqual(mirrored, bits[::-1])

    def test_each_page_says_what_it_is_and_where_it_stands(self):
        titles = [page[0].partition(":")[0] for page in self.pages]
        self.assertEqual(titles, ["The six-bit counter", "Mirrored bytes, 00 to 7F", "Mirrored bytes, 80 to FF"])
        for page in self.pages:
            file = re.fullmatch("In the program: (.*)", page[-1])[1]
            self.assertRegex((PROJECT / file).read_text("utf-8"), r"const \w+: \[u8; (63|256)\]")

    def test_paper_has_room(self):
        for page in self.pages:
            self.assertLessEqual(max(map(len, page)), WIDEST)
            self.assertLessEqual(len(page), LONGEST)
            self.assertEqual([row for row in page if row != row.rstrip() or not row.isascii()], [])


class Layout(unittest.TestCase):
    def test_columns_are_filled_one_after_another(self):
        self.assertEqual(columns("h", ["aa", "bb", "cc", "dd"]), ["h     h", "aa    cc", "bb    dd"])
        self.assertEqual(columns("h", ["aa", "bb", "cc", "dd", "ee"]), ["h     h     h", "aa    cc    ee", "bb    dd"])

    def test_bytes_that_are_not_those_of_the_cards(self):
        for count in (0, 63, 318, 320):
            with self.assertRaisesRegex(ValueError, f"found {count} bytes: expected 319"):
                pages_of(bytes(count))


if __name__ == "__main__":
    unittest.main()
