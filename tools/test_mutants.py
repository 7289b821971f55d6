"""Tests of the wrong variants that mutate makes, and of its reading of the prover's log.
Run: python3 tools/test_mutants.py"""

import sys
import unittest
from pathlib import Path

sys.dont_write_bytecode = True

from mutants import applied, bodies, constants, of_files
from prover_log import judged

PROJECT = Path(__file__).resolve().parent.parent
SOURCE = """use crate::other::LIMIT;
const LEAST: u8 = 4;
const TABLE: [u8; 4] = [
    0b000,
    // A remark.
    0b100, 0b011,
    0b101,
];
pub struct Pair {
    pub one: u8,
    pub two: u8,
    pub flag: bool,
}
pub enum Why {
    Low = 1,
    High = 2,
}
impl From<Why> for Pair {
    fn from(why: Why) -> Pair {
        Pair { one: 0, two: 9, flag: true }
    }
}
impl Pair {
    // Whether it is right.
    pub(crate) fn right(self, least: u8, most: u8, open: bool) -> bool
        ensures { result ≡ right_of 5 < 6 }
    {
        if open {
            // 7 is no number of the code.
            return !self.flag;
        }
        (least < self.one) & (self.one + 1 == LEAST)
    }
}
"""


def changed(function="Pair::right"):
    """The rows of a function's variants that differ from the source, with the kind of the change."""
    rows = SOURCE.split("\n")
    made = of_files({"a.rt": SOURCE}, 1)[("a.rt", function)]
    return {(m.kind, applied(m, SOURCE).split("\n")[m.line - 1].strip()) for m in made if rows[m.line - 1]}


class Mutants(unittest.TestCase):
    def test_each_kind_of_change(self):
        for change in (
            ("operator", "(least <= self.one) & (self.one + 1 == LEAST)"),
            ("operator", "(least < self.one) | (self.one + 1 == LEAST)"),
            ("operator", "(least < self.one) & (self.one - 1 == LEAST)"),
            ("operator", "(least < self.one) & (self.one + 1 != LEAST)"),
            ("constant", "(least < self.one) & (self.one + 2 == LEAST)"),
            ("constant", "(least < self.one) & (self.one + 0 == LEAST)"),
            ("operand", "(most < self.one) & (self.one + 1 == LEAST)"),
            ("operand", "(least < self.two) & (self.one + 1 == LEAST)"),
            ("dropped condition", "true & (self.one + 1 == LEAST)"),
            ("dropped condition", "(least < self.one) & false"),
            ("dropped condition", "if false {"),
            ("negated condition", "if !(open) {"),
            ("dropped negation", "return self.flag;"),
        ):
            self.assertIn(change, changed())

    def test_a_contract_is_left_alone(self):
        self.assertFalse([row for _, row in changed() if "ensures" in row or "fn right" in row])

    def test_a_comment_is_left_alone(self):
        self.assertFalse([row for _, row in changed() if "8 is no number" in row or "6 is no number" in row])

    def test_constants(self):
        self.assertEqual(changed("const LEAST"), {("constant", "const LEAST: u8 = 5;")})

    def test_numbered_cases(self):
        self.assertEqual(changed("case Low"), {("number", "Low = 3,")})
        self.assertEqual(changed("case High"), {("number", "High = 3,")})

    def test_an_impl_of_a_conversion(self):
        self.assertIn(("constant", "Pair { one: 1, two: 9, flag: true }"), changed("Pair::from"))

    def test_tables(self):
        expected = {("entry", row) for row in ("0b010, 0b011,", "0b100, 0b101,", "0b011,")}
        self.assertEqual(changed("const TABLE"), expected)

    def test_each_variant_differs(self):
        made = of_files({"a.rt": SOURCE}, 1)
        self.assertTrue(all(applied(m, SOURCE) != SOURCE for one in made.values() for m in one))

    def test_every_entry_of_the_mirrored_bytes(self):
        (file,) = (PROJECT / "crates/mirror/src").glob("mirrored_bytes.rt")
        made = of_files({file.name: file.read_text("utf-8")}, 1)[(file.name, "const MIRRORED_BYTES")]
        self.assertEqual(len({mutant.start for mutant in made}), 254)  # all but 0 and 255
        for mutant in made:
            self.assertEqual(sorted(mutant.old), sorted(mutant.new))

    def test_the_seed_decides(self):
        orders = [of_files({"a.rt": SOURCE}, seed)[("a.rt", "Pair::right")] for seed in (1, 1, 2)]
        self.assertEqual(orders[0], orders[1])
        self.assertNotEqual(orders[0], orders[2])
        self.assertEqual(set(orders[0]), set(orders[2]))

    def test_every_function_of_the_chip(self):
        texts = {p.name: p.read_text("utf-8") for p in (PROJECT / "crates/tia/src").glob("*.rt")}
        made = of_files(texts, 1)
        names = [(file, body.name) for file, text in texts.items() for body in bodies(file, text)]
        self.assertEqual(len(names), sum(text.count("fn ") for text in texts.values()))
        self.assertEqual([name for name in names if not made[name]], [])
        self.assertEqual(len(made), len(set(names)) + len(constants(texts)))


class Logs(unittest.TestCase):
    def test_verdicts(self):
        proof = "proofs/a/f/Answers.antt"
        consequence = "./proofs/a/g/Answers.antt:1:2: error: 1 declaration that depends on `law`, which was rejected, was not checked: returns\n"
        broken = f"./{proof}:3:4: error: `returns`: `omega`: the goal does not follow\n"
        shape = f"./{proof}:3:4: error: module `Goals` has no `add` that can be named from here\n"
        alone = f"fn tia::a::f: no proof: expected answers in ./{proof}; `search` did not prove `add`\n"
        compiler = "src/a.rt:1:2: error[mismatched-types]: expected `u8`\n"
        for code, log, said in (
            (0, "logic=proved", "passed"),
            (1, compiler, "no program: src/a.rt:1: [mismatched-types] expected `u8`"),
            (1, consequence + broken, f"refused: {proof}:3: `returns`: `omega`: the goal does not follow"),
            (1, consequence + shape, f"hollow: {proof}:3: module `Goals` has no `add` that can be named from here"),
            (1, consequence + alone, f"refused: {proof}: fn tia::a::f: no proof: `search` did not prove `add`"),
            (1, "", "unknown: exit status 1"),
            (2, "rt: no room", "unknown: exit status 2: rt: no room"),
        ):
            self.assertEqual(judged(code, log).said(), said)


if __name__ == "__main__":
    unittest.main()
