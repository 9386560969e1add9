"""The tests that `bench/fair` makes of an answer; expected values are reckoned by hand."""
import importlib.machinery
import importlib.util
import sys
import unittest
from pathlib import Path
from typing import Any

TOP = Path(__file__).resolve().parents[2]
sys.dont_write_bytecode = True


def loaded(name: str) -> Any:
    """A script as a module."""
    loader = importlib.machinery.SourceFileLoader(f"bench_{name}", str(TOP / "bench" / name))
    spec = importlib.util.spec_from_loader(loader.name, loader)
    assert spec is not None
    module = importlib.util.module_from_spec(spec)
    loader.exec_module(module)
    return module


FAIR = loaded("fair")

# A seller is paid 31/2 by a buyer.
PAIR = "prices 2 31\naccuracy 0 1\ndistance 0/1\nfairness 1\nend fair\n"
# Three bidders each buy at 10 or sell at 0. One sells to one, which pays 10, and nobody is paid: at a price p the third gains
# 10 - p or p by trading, so 5 at least; and the buyer's set is 5 from its payment at 5.
CORE = """prices 1 5
accuracy 500 2
row 0 1 110
row 0 1 101
distance 5/1
fairness 100
hold 2 100 0
row 0 1 101
end fair
"""


def faults(journal: str, text: str) -> list[str]:
    """The tests that an answer fails."""
    with open(TOP / "page/tests/samples" / journal, "rb", buffering=0) as stream:
        trade = FAIR.Trade(FAIR.read_journal(FAIR.Lines(stream)))
    found: list[str] = FAIR.Answer(trade, text).faults(trade)
    return found


class Answers(unittest.TestCase):
    """Right answers pass, and each wrong number fails its test."""

    def test_right(self) -> None:
        self.assertEqual(faults("two-settlements.session", PAIR), [])
        self.assertEqual(faults("empty-core.session", CORE), [])

    def test_wrong(self) -> None:
        for old, new, names in (
            ("prices 1 5", "prices 1 6", ["violation", "distance"]),
            ("accuracy 500 2", "accuracy 600 2", ["violation", "accuracy", "fairness"]),
            ("accuracy 500 2", "accuracy 500 1", ["accuracy"]),
            ("row 0 1 110\n", "", ["accuracy"]),
            ("distance 5/1", "distance 4/1", ["distance", "fairness"]),
            ("fairness 100", "fairness 99", ["numbers", "fairness"]),
            ("hold 2 100 0", "hold 2 0 100", ["fairness"]),
            ("hold 2 100 0\nrow 0 1 101", "hold 2 100 0\nrow 0 2 101", ["fairness"]),
        ):
            with self.subTest(new):
                self.assertEqual(faults("empty-core.session", CORE.replace(old, new)), names)


if __name__ == "__main__":
    unittest.main()
