"""Tests of tools/places.py. Run: python3 tools/test_places.py"""

import sys
import unittest

sys.dont_write_bytecode = True

from places import functions, indexing, places, repeated, travelling, twins  # noqa: E402

TWINS = """// Two of one shape, and one that is not.
fn first(self, one: u8) -> u8
    requires { one < 8 }
    ensures { result ≡ f one }
{
    if one < self.bound { self.left(one) } else { 0 }
}

pub(crate) fn second(self, other: u8, at: usize) -> u8 {
    if other < self.limit { self.right(other) } else { 1 }
}

    fn third(
        self,
        other: u8,
    ) -> u8 {
        if other < self.limit { 2 } else { self.right(other) }
    }
"""


class Functions(unittest.TestCase):
    def test_parts_of_each(self):
        found = functions(TWINS)
        self.assertEqual([name for name, _, _, _ in found], ["first", "second", "third"])
        name, head, clauses, body = found[0]
        self.assertIn("one: u8", head)
        self.assertNotIn("requires", head)
        self.assertIn("requires { one < 8 }", clauses)
        self.assertEqual(body.strip(), "if one < self.bound { self.left(one) } else { 0 }")

    def test_twins_have_one_shape(self):
        self.assertEqual(twins({"a.rt": TWINS}), ["a.rt: first, a.rt: second"])

    def test_parameters_travel_together_in_three(self):
        text = "".join(f"fn f{n}(tick: Tick, strobe: u8, copies: u8, more{n}: u8) {{\n    g();\n}}\n" for n in range(3))
        self.assertEqual(travelling({"a.rt": text}), ["['copies', 'strobe', 'tick'] in a.rt: f0, a.rt: f1, a.rt: f2"])
        self.assertEqual(travelling({"a.rt": text.replace("f2(tick", "f2(clock")}), [])

    def test_a_fact_that_three_require(self):
        text = "".join(f"fn f{n}(h: u8)\n    requires {{ (h ≤ 227) × (n < {n}) }}\n{{\n    g();\n}}\n" for n in range(3))
        self.assertEqual(repeated({"a.rt": text}), ["h ≤ 227 in a.rt: f0, a.rt: f1, a.rt: f2"])


class Rows(unittest.TestCase):
    def listed(self, text, point):
        return {kind: len(there) for kind, there in places({"a.rt": text})[point].items()}

    def test_loops(self):
        text = "fn f() {\n    for i in 0..8usize {\n        g(a[i]);\n    }\n    for i in 0..8usize {\n        g(i);\n    }\n    while i < 8 {\n    }\n}\n"
        self.assertEqual(indexing({"a.rt": text}), ["a.rt:2: for i in 0..8usize {"])
        self.assertEqual(self.listed(text, 3), {"a loop with a condition": 1, "a loop over a range that indexes by its number": 1})

    def test_comments_are_no_places(self):
        self.assertEqual(sum(self.listed("// x as u8\n", 4).values()), 0)
        self.assertEqual(self.listed("let y = x as u8; // a byte\n", 4)["a conversion by `as`"], 1)

    def test_an_enum_and_a_number(self):
        text = "pub enum Found {\n    Is(u8),\n    Refused(u8),\n}\n"
        self.assertEqual(sum(self.listed(text, 1).values()), 2)


if __name__ == "__main__":
    unittest.main()
