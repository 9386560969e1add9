"""Who could still change the result, and what each accepted bid did to the regret."""
import random
import re
import unittest
from itertools import product

from drawn import drawn_tree, is_satisfied
from support import ROOT, SAMPLES, opened, page_of

from ice_page.rival import part, wanted

HALL = (ROOT / "examples/hall-session.journal").read_text()
SEASON = (ROOT / "examples/season-session.journal").read_text()
PARTS, CHANGES = "Each bidder’s part", "What each accepted bid"
HEADING = "Who could still change the result"


def number(words: str) -> int:
    """The number that a cell has."""
    return int(words.replace("\u2212", "-").replace(",", "") or "0")


class Parts(unittest.TestCase):
    """The parts of the regret, as a page shows them."""

    def test_by_hand(self) -> None:
        # The final trade: the choir has monday and tuesday, 60..80. The rival: the opera has
        # tuesday and wednesday, 55..70. The hall sells two days at 10 each in both.
        rows = page_of(HALL).table(PARTS)
        self.assertEqual(
            rows[2:],
            [
                ["hall", "0", "0"],
                ["choir", "−60", "20"],
                ["opera", "+70", "15"],
                ["all: the regret", "+10", "35"],
            ],
        )

    def test_parts_sum_to_the_regret(self) -> None:
        shown = 0
        for file in SAMPLES:
            journal = file.read_text()
            regrets = [int(each) for each in re.findall(r"(?m)^regret (\d+)$", journal)]
            rows = page_of(journal).table(PARTS)
            wanted_sums = [each for each in regrets if each]
            with self.subTest(file.name):
                self.assertEqual(bool(rows), bool(wanted_sums))
                if rows:
                    sums = [[number(cell) for cell in row[1::2]] for row in rows[2:]]
                    self.assertEqual(sums[-1], wanted_sums)
                    self.assertEqual([sum(each) for each in zip(*sums[:-1])], wanted_sums)
                    shown += 1
        self.assertGreater(shown, 5)

    def test_part_is_the_most_that_values_inside_allow(self) -> None:
        """By trying both ends of each interval, which is where a sum over nodes is greatest."""
        draw = random.Random(67)
        for _ in range(60):
            nodes = drawn_tree(draw, 5)
            count = len(nodes)
            if count > 9:
                continue
            low = [draw.randrange(-9, 9) for _ in nodes]
            high = [end + draw.randrange(4) for end in low]
            every = map("".join, product("01", repeat=count))
            sets = [bits for bits in every if is_satisfied(nodes, bits)]
            final, rival = draw.choice(sets), draw.choice(sets)
            gains = [
                sum(v for v, bit in zip(values, rival) if bit == "1")
                - sum(v for v, bit in zip(values, final) if bit == "1")
                for values in product(*zip(low, high))
            ]
            found = part(final, rival, (low, high))
            self.assertEqual((found.gain, found.open), (max(gains), max(gains) - min(gains)))
            self.assertEqual(found.differs, final != rival)

    def test_odds_are_named(self) -> None:
        damaged = HALL.replace("\nregret 10\n", "\nregret 11\n")
        words = page_of(damaged).root.seen()
        self.assertIn("don’t sum to the regret that settlement 0 states", words)
        self.assertNotIn("don’t sum", page_of(HALL).root.seen())

    def test_one_bidder_sees_nothing_of_it(self) -> None:
        self.assertIn(HEADING, page_of(HALL).root.seen())
        self.assertNotIn(HEADING, page_of(HALL, "--bidder", "choir").root.seen())


class Asked(unittest.TestCase):
    """Who needs to be asked, in a sentence."""

    def test_all_that_have_something_open(self) -> None:
        words = page_of(opened(HALL, 0)).root.seen()
        self.assertIn("35 lies open, 20 of it with choir. So choir and opera need to be", words)
        self.assertIn("once they have told their values of what differs, it is known", words)

    def test_one_alone(self) -> None:
        # 117 of 120 lie with Charter-Sud, and without it 3 is no more than the 35 that close.
        words = page_of(opened(SEASON, 2)).root.seen()
        self.assertIn("120 lies open, 117 of it with Charter-Sud. So Charter-Sud alone", words)
        self.assertIn("can be worth 3 more at most (the session closes at 35)", words)

    def test_closed(self) -> None:
        words = page_of(SEASON).root.seen()
        self.assertIn("49 lies open, all of it with Charter-Sud. The session has closed", words)
        self.assertNotIn("to be asked", words)

    def test_fewest(self) -> None:
        self.assertEqual(wanted([3, 9, 0, 5], 0), [1, 3, 0])
        self.assertEqual(wanted([3, 9, 0, 5], 3), [1, 3])
        self.assertEqual(wanted([3, 9, 0, 5], 7), [1, 3])
        self.assertEqual(wanted([3, 9, 0, 5], 8), [1])
        self.assertEqual(wanted([3, 9, 0, 5], 17), [])


class Changes(unittest.TestCase):
    """What each accepted bid did to the regret."""

    def test_by_hand(self) -> None:
        # The opera's upper value falls from 70 to 60, and nothing else: the rival is no better.
        rows = page_of(HALL).table(CHANGES)
        self.assertEqual(
            rows,
            [
                ["", "round 1"],
                ["opera", "−10"],
                ["other trades", "0"],
                ["all: the regret", "−10"],
            ],
        )

    def test_changes_sum_to_those_of_the_regret(self) -> None:
        shown = 0
        for file in SAMPLES:
            journal = file.read_text()
            regrets = [int(each) for each in re.findall(r"(?m)^regret (\d+)$", journal)]
            rows = page_of(journal).table(CHANGES)
            for place, (before, after) in enumerate(zip(regrets, regrets[1:]), 1):
                if not rows:
                    continue
                with self.subTest(file.name, round=place):
                    cells = [number(row[place]) for row in rows[1:]]
                    self.assertEqual(cells[-1], after - before)
                    self.assertEqual(sum(cells[:-1]), after - before)
                    shown += 1
        self.assertGreater(shown, 5)

    def test_a_bid_alone_is_named(self) -> None:
        rows = {row[0]: row[1:] for row in page_of(SEASON).table(CHANGES)[1:]}
        submitted = re.findall(r"(?m)^submit (\S+) .*\nverdict accepted$", SEASON)
        self.assertEqual(set(rows) - {"other trades", "all: the regret"}, set(submitted))
        self.assertEqual(rows["Polar-Cargo"][0], "")


class SmallLines(unittest.TestCase):
    """Prices and regret as small lines."""

    def test_each_good_and_the_regret(self) -> None:
        page = page_of(SEASON)
        (listed,) = page.root.all("ul", "courses")
        entries = {entry.parts[0].text: entry for entry in listed.all("li")}
        goods = re.findall(r"(?m)^(?:good|exact) (\S+)$", SEASON)
        self.assertEqual(list(entries), ["regret", *goods])
        self.assertEqual(entries["regret"].parts[2].text, "705 → 32")
        self.assertEqual(entries["regret"].all("title")[0].text, "regret: 705, 114, 89, 32")
        (path,) = entries["regret"].all("path")
        heights = [float(point.split()[1]) for point in path.attributes["d"][1:].split("L")]
        # from 4 at the greatest value down to 22 at 0
        self.assertEqual(heights, [4.0, 19.1, 19.7, 21.2])

    def test_one_settlement_has_none(self) -> None:
        self.assertEqual(page_of(opened(HALL, 0)).root.all("ul", "courses"), [])


if __name__ == "__main__":
    unittest.main()
