"""Trades that are worth the same at lower values: which of them is shown, in all orders of the
bidders, against all assignments tried in plain code."""
import json
import random
import tempfile
import unittest
from collections.abc import Iterator
from itertools import permutations
from pathlib import Path
from typing import Any

from harness.judge import faults
from harness.program import DONE, IS_ALL, OPEN, Program, Ran, programs
from harness.ties import Ties, bidder, drawn, leaf, market

SLOT = [
    bidder("a", leaf("buy", "A", 50, 50)),
    bidder("b", leaf("buy", "A", 50, 100)),
    bidder("s", leaf("sell", "A", -10, -10), A=1),
]
MARKETS = 120 if IS_ALL else 24


def orders(of: dict[str, Any]) -> Iterator[dict[str, Any]]:
    """The market with its bidders in each order."""
    for bidders in permutations(of["bidders"]):
        yield {**of, "bidders": list(bidders)}


def run(program: Program, word: str, of: dict[str, Any]) -> Ran:
    """A command on a market."""
    with tempfile.TemporaryDirectory() as folder:
        file = Path(folder, "market.json")
        file.write_text(json.dumps(of))
        return program.run([word, file])


def regret_of(journal: bytes) -> int:
    """The regret that a journal states first."""
    line = next(line for line in journal.splitlines() if line.startswith(b"regret "))
    return int(line.split()[1])


def groups(journal: bytes) -> list[bytes]:
    """The lines from the first final group to its regret."""
    lines = journal.splitlines()
    first = next(number for number, line in enumerate(lines) if line.startswith(b"final "))
    last = next(number for number, line in enumerate(lines) if line.startswith(b"regret "))
    return lines[first : last + 1]


class TestTies(unittest.TestCase):
    """The regret that is shown is one that the rule leaves possible."""

    def try_order(self, program: Program, of: dict[str, Any], due: set[int]) -> None:
        """Tests `regret` and settlement 0 of `run`."""
        ran = run(program, "regret", of)
        self.assertEqual(ran.status, DONE, str(ran))
        regret = regret_of(ran.output)
        self.assertIn(regret, due, json.dumps(of))
        self.assertEqual(list(faults(ran.output, f"yes {regret}")), [])
        session = run(program, "run", of)
        closes = regret <= of["settings"]["close_regret"]
        self.assertEqual(session.status, DONE if closes else OPEN, str(session))
        self.assertEqual(groups(session.output), groups(ran.output))

    def test_one_slot(self) -> None:
        # Both buyers leave 40. Sold to a, the slot may be worth 50 more to b; sold to b, it may be
        # worth no more to anybody.
        for program in programs():
            for of in orders(market(0, "A", SLOT)):
                with self.subTest([bidder["name"] for bidder in of["bidders"]]):
                    self.try_order(program, of, {0})

    def test_above_the_regret_that_closes_alone(self) -> None:
        # At 50 a session closes with either, so that either may be shown.
        for program in programs():
            for of in orders(market(50, "A", SLOT)):
                self.try_order(program, of, {0, 50})

    def test_as_long_as_it_falls(self) -> None:
        # The slot leaves 40 with each; sold to the last of them it may be worth 40 more to another,
        # and to any other one 50 more to the last.
        buyers = [bidder(f"b{room}", leaf("buy", "A", 50, 50 + room)) for room in (0, 20, 40, 50)]
        for program in programs():
            for of in orders(market(0, "A", [*buyers, SLOT[2]])):
                self.try_order(program, of, {40})

    def test_drawn(self) -> None:
        for program in programs():
            draw = random.Random(20261201)
            settled = 0
            for number in range(MARKETS):
                of = drawn(draw)
                ran = run(program, "regret", of)
                self.assertEqual(ran.status, DONE, str(ran))
                ties = Ties(ran.output)
                due = ties.last_regrets
                self.assertLessEqual(due, ties.first_regrets)
                settled += len(due) == 1 and len(ties.first_regrets) > 1
                with self.subTest(number=number, due=due, first=ties.first_regrets):
                    for other in orders(of):
                        self.try_order(program, other, due)
            # of some of them the rule leaves one regret, where without it the order chose
            self.assertGreaterEqual(settled, MARKETS // 6)


if __name__ == "__main__":
    unittest.main()
