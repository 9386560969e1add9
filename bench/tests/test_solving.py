"""The assignment problems of journals: one written out by hand, and those of the examples put to solvers."""
import sys
import tempfile
import unittest
from pathlib import Path

TOP = Path(__file__).resolve().parents[2]
sys.dont_write_bytecode = True
sys.path.insert(0, str(TOP / "bench"))

from solving import Problems, installed, solved  # noqa: E402

# A seller at 8 to 15 and a buyer of both units at 20 to 30 or of one at 12, whose rival is the sale of one.
JOURNAL = """ice 2 regret
settings 50 0 100 1 5 200
good A
exact B
bidder s 2 0
node sell 0 2 -15 -8
bidder b 0 0
node choose 0 1 2 0 0
node buy 0 2 20 30
node buy 0 1 12 12
final 5
set 1
set 110
near
rival 5
set 1
set 110
near
regret 0
end regret
"""
ROWS = """Subject To
r0: x1_1 - x1_0 <= 0
r1: x1_2 - x1_0 <= 0
r2: x1_1 + x1_2 - 1 x1_0 <= 0
r3: x1_1 + x1_2 - 0 x1_0 >= 0
r4: -2 x0_0 +2 x1_1 +1 x1_2 <= 0
Binary
x0_0
x1_0
x1_1
x1_2
End
"""


class Written(unittest.TestCase):
    """Problems as they are written."""

    def test_by_hand(self) -> None:
        final, rival = Problems(JOURNAL).found
        self.assertEqual(final, ("Maximize\nvalue: -15 x0_0\n+0 x1_0\n+20 x1_1\n+12 x1_2\n" + ROWS, 5))
        # of what the final sets have the lower values stay; the node of one unit has one value
        self.assertEqual(rival, ("Maximize\nvalue: -15 x0_0\n+0 x1_0\n+20 x1_1\n+12 x1_2\n" + ROWS, 5))

    def test_upper_values_of_a_rival(self) -> None:
        text = JOURNAL.replace("final 5\nset 1\nset 110", "final 0\nset 0\nset 000").replace("rival 5", "rival 22")
        _final, (rival, value) = Problems(text).found
        self.assertEqual(rival.split("\nSubject")[0], "Maximize\nvalue: -8 x0_0\n+0 x1_0\n+30 x1_1\n+12 x1_2")
        self.assertEqual(value, 22)

    def test_a_spent_search_is_no_problem(self) -> None:
        text = (TOP / "tests/files/spent.regret").read_text()
        self.assertEqual(Problems(text).found, [])

    def test_a_bidder_is_left_out(self) -> None:
        text = (TOP / "tests/files/sale.session").read_text()
        left_out = [row for program, _value in Problems(text).found for row in program.splitlines() if row.endswith("_0 = 0")]
        self.assertEqual(left_out, ["r1: x0_0 = 0", "r1: x1_0 = 0"])


@unittest.skipUnless(installed("glpk,cbc"), "no solver is installed")
class Solved(unittest.TestCase):
    """Problems as the solvers solve them."""

    def test_examples(self) -> None:
        with tempfile.TemporaryDirectory() as name:
            folder = Path(name)
            for path in sorted(TOP.glob("examples/*-session.journal")) + sorted(TOP.glob("examples/*regret.journal")):
                for program, value in Problems(path.read_text()).found:
                    (folder / "problem.lp").write_text(program)
                    for solver in installed("glpk,cbc"):
                        with self.subTest(path.name, solver=solver):
                            self.assertEqual(solved(solver, folder, 60)[0], value)


if __name__ == "__main__":
    unittest.main()
