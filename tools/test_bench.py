"""Tests of the inputs that bench/run measures with: it is read as a module, and nothing is measured.
Run: python3 tools/test_bench.py"""

import sys
import unittest
from importlib.machinery import SourceFileLoader
from importlib.util import module_from_spec, spec_from_loader
from pathlib import Path

sys.dont_write_bytecode = True

PROJECT = Path(__file__).resolve().parent.parent


def bench():
    """The module of bench/run."""
    loader = SourceFileLoader("bench_run", str(PROJECT / "bench" / "run"))
    module = module_from_spec(spec_from_loader(loader.name, loader))
    loader.exec_module(module)
    return module


class Inputs(unittest.TestCase):
    def test_writes_of_each_case(self):
        run = bench()
        lists = {case: run.write_list(source) for case, source in run.CASES.items()}
        self.assertEqual({case: len(writes) // 3 for case, writes in lists.items()}, {"idle": 0, "20 writes": 20, "reflected": 6})
        self.assertEqual(run.repeated(258, lists["20 writes"])[:7], bytes([0, 0, 1, 2, 0, 0x04, 0x13]))


if __name__ == "__main__":
    unittest.main()
