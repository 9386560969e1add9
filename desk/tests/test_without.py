"""A market without one of its bidders, and what that changes for each other one."""
import json
import re
import unittest
from fractions import Fraction
from typing import Any

from support import EXAMPLES, HALL, TOP, Desk

from ice_desk.compared import Pair, Share
from ice_desk.folder import read_journal
from ice_desk.without import market_of, rounds_left

SESSIONS = sorted(EXAMPLES.glob("*-session.journal")) + sorted(
    file for file in (TOP / "page" / "tests" / "samples").glob("*.session")
)


def flat(tree: dict[str, Any]) -> list[tuple[Any, ...]]:
    """The nodes of a tree in preorder, each as a node record has it, but for its two values."""
    if "choose" in tree:
        inside = [each for child in tree["of"] for each in flat(child)]
        return [("choose", *tree["choose"], len(tree["of"]), tree["lo"], tree["hi"]), *inside]
    side = "buy" if "buy" in tree else "sell"
    return [(side, tree[side], tree["units"], tree["lo"], tree["hi"])]


def last_bounds(journal: str) -> dict[str, list[tuple[int, int]]]:
    """The bounds of each bidder's nodes at the last settlement, by the lines of the journal."""
    bounds: dict[str, list[tuple[int, int]]] = {}
    name = ""
    lines = [line.split() for line in journal.splitlines()]
    for line, behind in zip(lines, [*lines[1:], [""]]):
        if line[0] == "bidder":
            name = line[1]
            bounds[name] = []
        elif line[0] == "node":
            bounds[name].append((int(line[-2]), int(line[-1])))
        elif line[0] == "submit" and behind == ["verdict", "accepted"]:
            low, high = line[3 : 3 + int(line[2])], line[4 + int(line[2]) :]
            bounds[line[1]] = list(zip(map(int, low), map(int, high)))
    return bounds


class Markets(unittest.TestCase):
    """The market that is made."""

    def test_of_the_hall(self) -> None:
        """The hall's market, in which the opera told that it pays 60 at most."""
        made = market_of(read_journal(HALL), None, 0)
        wanted = json.loads((EXAMPLES / "hall.json").read_text())
        wanted["settings"]["rounds"] = 0
        wanted["bidders"][2]["tree"]["hi"] = 60
        self.assertEqual(made, wanted)
        made = market_of(read_journal(HALL), 1, 3)
        wanted["settings"]["rounds"] = 3
        del wanted["bidders"][1]
        self.assertEqual(made, wanted)

    def test_of_every_session(self) -> None:
        for file in SESSIONS:
            text, journal = file.read_text(), read_journal(file)
            made = market_of(journal, None, 7)
            with self.subTest(file.name):
                bounds = last_bounds(text)
                self.assertEqual([each["name"] for each in made["bidders"]], list(bounds))
                nodes = [node for each in made["bidders"] for node in flat(each["tree"])]
                told = [pair for each in bounds.values() for pair in each]
                self.assertEqual([node[-2:] for node in nodes], told)
                numbers = {name: str(n) for n, name in enumerate(self.goods(made))}
                lines = [
                    " ".join(numbers.get(part, str(part)) for part in node[:-2]) for node in nodes
                ]
                wanted = re.findall(r"(?m)^node (.*) -?\d+ -?\d+$", text)
                self.assertEqual(lines, wanted)
                owned = re.findall(r"(?m)^bidder \S+ (.*)$", text)
                self.assertEqual(
                    [
                        " ".join(str(each["own"].get(name, 0)) for name in self.goods(made))
                        for each in made["bidders"]
                    ],
                    owned,
                )

    @staticmethod
    def goods(made: dict[str, Any]) -> list[str]:
        """The names of the goods of a market."""
        return [good["exact"] if isinstance(good, dict) else good for good in made["goods"]]

    def test_rounds_that_are_left(self) -> None:
        self.assertEqual(rounds_left(read_journal(HALL)), 0)
        samples = TOP / "page" / "tests" / "samples"
        text = (samples / "open.session").read_text()
        (settings,) = re.findall(r"(?m)^settings (.*)$", text)
        rounds = int(settings.split()[4])
        self.assertEqual(rounds_left(read_journal(samples / "open.session")), rounds)


class Command(Desk):
    """The command, and what it says."""

    def test_by_hand(self) -> None:
        # The trade is worth 60 - 20 = 40, and without the hall 0. Without the choir it is 35 by the
        # opera, and where that is left out 30 by the dance. So the choir's Vickrey discount is 5,
        # and then 10; the hall's is 40; the cut is 5/2, and then 5; the choir pays 60 - 5/2, and
        # then 60 - 5.
        status, output, errors = self.without(HALL, "opera")
        self.assertEqual((status, errors), (0, ""))
        self.assertEqual(
            output.splitlines()[1:7],
            [
                "  total value 40 before, 40 without",
                "  regret 0 before, 0 without",
                "  surplus 0 before, 0 without",
                "  hall: receives 57.5 (115/2) before, receives 55 without; sell monday + tuesday",
                "  choir: pays 57.5 (115/2) before, pays 55 without; buy monday + tuesday",
                "  dance: pays 0 as before; no trade",
            ],
        )
        self.assertNotIn("warning", output)

    def test_a_warning(self) -> None:
        # 2.5 of 57.5 is 4.3 in a hundred
        _, output, _ = self.without(HALL, "opera", "--much=4")
        self.assertIn("warning: payments differ by more than 4 %: hall by 4.3 % and choir", output)
        self.assertNotIn("warning", self.without(HALL, "opera", "--much=5")[1])

    def test_the_market_goes_into_a_file_that_is_new(self) -> None:
        status, output, _ = self.without(HALL, "opera", "-o", "without.json")
        self.assertEqual(status, 0)
        self.assertIn("the market without opera: without.json, with rounds 0", output)
        made = json.loads((self.folder / "without.json").read_text())
        self.assertEqual([each["name"] for each in made["bidders"]], ["hall", "choir", "dance"])
        status, _, errors = self.without(HALL, "opera", "-o", "market.json")
        self.assertEqual(status, 1)
        self.assertIn("is there already", errors)

    def test_it_stops(self) -> None:
        stops: tuple[tuple[int, tuple[object, ...], dict[str, str]], ...] = (
            (2, (HALL, "nobody"), {}),
            (2, (EXAMPLES / "hall-regret.journal", "opera"), {}),
            (6, ("none.journal", "opera"), {}),
            (4, (HALL, "opera"), {"STATUS": "4"}),
            (3, (HALL, "opera"), {"WRONG": "1"}),
            (1, (HALL,), {}),
            (1, (HALL, "opera", "--rounds=21"), {}),
            (7, (HALL, "opera", "-o", "no/folder.json"), {}),
        )
        for status, words, settings in stops:
            with self.subTest(words):
                found, output, _ = self.without(*words, **settings)
                self.assertEqual((found, output), (status, ""))

    def test_changes(self) -> None:
        for before, now, change in ((100, 90, 0.1), (-50, -100, 0.5), (10, -10, 2), (0, 0, 0)):
            pair = Pair("a", Share("", Fraction(before)), Share("", Fraction(now)))
            self.assertAlmostEqual(float(pair.change), change)


if __name__ == "__main__":
    unittest.main()
