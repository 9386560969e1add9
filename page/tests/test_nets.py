"""Tables of nets and activity rules: by hand, by trying everything, and as journals have them."""
import io
import random
import unittest
from fractions import Fraction
from typing import Any
from unittest import mock

from drawn import all_sets, drawn_tree, profiles
from support import ROOT, SAMPLES

from ice_page import nets, rules
from ice_page.journal import Bidder, Bounds, Journal, Lines, Node, read_journal
from ice_page.records import read_record
from ice_page.rules import Offer

HALL = (ROOT / "examples/hall-session.journal").read_text()


def journal_of(text: str, name: str | None = None) -> Journal:
    """A journal read from its text."""
    return read_journal(Lines(io.BytesIO(text.encode())), name)


def drawn_offer(seed: int) -> Offer | None:
    """An offer drawn from a seed; None where its tree is too large to try everything."""
    draw = random.Random(seed)
    nodes = drawn_tree(draw, 5)
    if len(nodes) > 8:
        return None
    low = [draw.randrange(-6, 6) for _ in nodes]
    high = [least + draw.choice([0, 0, 1, 5]) for least in low]
    prices = [Fraction(draw.randrange(9), draw.choice([1, 2, 3])) for _ in range(2)]
    own = draw.choice(all_sets(nodes))
    return Offer(Bidder("b", [9, 9], nodes), (low, high), prices, own, draw.randrange(4))


class Tried:
    """What an offer comes to by its definition, found by trying all sets and profiles."""

    def __init__(self, offer: Offer, bounds: Bounds) -> None:
        self.offer, nodes = offer, offer.bidder.nodes
        sets = all_sets(nodes)
        self.nets: list[dict[str, Fraction]] = []
        for values in profiles(*bounds):
            net = {}
            for bits in sets:
                net[bits] = Fraction(0)
                for node, value in zip(nodes, values):
                    if bits[node.number] == "1":
                        sign = {"buy": -1, "sell": 1, "choose": 0}[node.kind]
                        price = offer.prices[node.first] if sign else Fraction(0)
                        net[bits] += value + sign * node.second * price
            self.nets.append(net)
        self.sets = sets

    def could_be_best(self, bits: str) -> bool:
        return any(net[bits] == max(net.values()) for net in self.nets)

    def is_best(self, bits: str) -> bool:
        return all(net[bits] == max(net.values()) for net in self.nets)

    def is_ahead(self, one: str, other: str) -> bool:
        return all(net[one] > net[other] for net in self.nets)

    def loss(self) -> Fraction:
        return max(max(net.values()) - net[self.offer.provisional] for net in self.nets)

    def first(self) -> bool:
        own = self.offer.provisional
        return any(
            self.is_best(bits) and (self.is_best(own) or self.is_ahead(bits, own))
            for bits in self.sets
        )

    def gains_more(self, least: Fraction) -> bool:
        own = self.offer.provisional
        return any(all(net[bits] - net[own] > least for net in self.nets) for bits in self.sets)


def narrowed(draw: random.Random, bounds: Bounds) -> Bounds:
    """Bounds inside these."""
    low, high = [], []
    for least, most in zip(*bounds):
        ends = sorted(draw.randrange(least, most + 1) for _ in range(2))
        low.append(draw.choice([least, ends[0]]))
        high.append(draw.choice([most, ends[1], ends[1]]))
    return low, high


class ByTrying(unittest.TestCase):
    """Each function says what its definition says."""

    def test_tables(self) -> None:
        states = set()
        for seed in range(150):
            offer = drawn_offer(seed)
            if offer is None:
                continue
            tried = Tried(offer, offer.bounds)
            table = nets.table_of(offer, 2)
            self.assertEqual((table.extent, table.all_sets), (nets.ALL, len(tried.sets)))
            maker = nets.Maker(offer, 2)
            candidates = {maker.sameness(bits) for bits in tried.sets if tried.could_be_best(bits)}
            shown = [maker.sameness(row.bits) for row in table.candidates]
            self.assertEqual((set(shown), len(shown)), (candidates, len(candidates)), seed)
            rows = {maker.sameness(row.bits): row for row in table.rows}
            self.assertEqual(len(rows), len(table.rows))
            self.assertTrue(rows[maker.sameness(offer.provisional)].is_provisional)
            self.assertEqual(sum(row.is_provisional for row in table.rows), 1)
            self.assertIn(maker.sameness("0" * len(offer.bidder.nodes)), rows)
            most = [row.most for row in table.candidates]
            self.assertEqual(most[: len(shown)], sorted(most, reverse=True), seed)
            for row in table.rows:
                found = [net[row.bits] for net in tried.nets]
                self.assertEqual((row.least, row.most), (min(found), max(found)), seed)
                state = nets.OPEN if tried.could_be_best(row.bits) else nets.BEHIND
                state = nets.SURE if tried.is_best(row.bits) else state
                self.assertEqual(row.state, state, seed)
                states.add(state)
        self.assertEqual(len(states), 3)

    def test_rules(self) -> None:
        verdicts = set()
        for seed in range(400):
            offer = drawn_offer(seed)
            if offer is None:
                continue
            new = narrowed(random.Random(seed), offer.bounds)
            before, after = Tried(offer, offer.bounds), Tried(offer, new)
            first, second = offer.first_rule(new), offer.second_rule(new)
            self.assertEqual(first.holds, after.first(), seed)
            if first.other is not None:
                leads = [net[first.other] - net[first.wanted] for net in after.nets]
                self.assertEqual(first.gap, max(leads), seed)
                self.assertTrue(first.gap > 0 or first.other == offer.provisional, seed)
            most = before.loss() - offer.improve
            self.assertEqual((second.before, second.now), (before.loss(), after.loss()), seed)
            self.assertEqual(second.most, most)
            holds = after.loss() == 0 or after.loss() <= most or after.gains_more(most)
            self.assertEqual(second.holds, holds, seed)
            verdict = "accepted" if first.holds and holds else "43" if first.holds else "42"
            self.assertEqual(offer.judge(*new), (verdict, None), seed)
            verdicts.add(verdict)
        self.assertEqual(verdicts, {"accepted", "42", "43"})

    def test_verdicts_of_journals(self) -> None:
        judged = 0
        for file in SAMPLES:
            text = file.read_text()
            journal = journal_of(text)
            names = [bidder.name for bidder in journal.bidders]
            settlement = -1
            submitted: list[Any] = [""]
            taken: set[str] = set()
            for line in text.splitlines():
                if line.startswith("settle "):
                    settlement, taken = settlement + 1, set()
                if line.startswith("submit "):
                    submitted = read_record(line).fields
                if not line.startswith("verdict ") or submitted[0] not in names:
                    continue
                name, *bounds = submitted
                if name in taken:
                    self.assertEqual(line, "verdict 44")
                    continue
                number = names.index(name)
                offer = rules.offer(journal, journal.settlements[settlement], number)
                assert offer is not None
                verdict, node = offer.judge(*bounds)
                at = "" if node is None else f" {node}"
                self.assertEqual(line, f"verdict {verdict}{at}", (file.name, settlement, name))
                judged += 1
                if verdict == "accepted":
                    taken.add(name)
        self.assertGreater(judged, 100)


class ByHand(unittest.TestCase):
    """The hall, as its tutorial reckons it: prices 170/6, 200/6 and 95/6, `improve` 5."""

    def offer(self, number: int) -> Offer:
        """The offer of round 1 to a bidder."""
        journal = journal_of(HALL)
        offer = rules.offer(journal, journal.settlements[0], number)
        assert offer is not None
        return offer

    def test_choir(self) -> None:
        offer = self.offer(1)
        table = nets.table_of(offer, 3)
        two_days, wednesday = Fraction(370, 6), Fraction(95, 6)
        self.assertEqual(
            [row[:7] for row in table.rows],
            [
                ("11110", [1, 1, 0], two_days, 60 - two_days, 80 - two_days, nets.OPEN, True),
                ("10001", [0, 0, 1], wednesday, 20 - wednesday, 30 - wednesday, nets.OPEN, False),
                ("00000", [0, 0, 0], 0, 0, 0, nets.BEHIND, False),
            ],
        )
        self.assertEqual((table.all_sets, table.extent, table.shares), (3, nets.ALL, False))
        # By the middles Wednesday leaves 55/6 and the days 50/6; at 80 and 20 these lead by 85/6.
        rule = offer.first_rule(offer.bounds)
        self.assertEqual(rule, ("10001", "11110", Fraction(85, 6)))
        self.assertEqual(offer.judge([0, 62, 0, 0, 20], [0, 80, 0, 0, 30])[0], "42")
        # 76 leaves at least 86/6, above the 85/6 of Wednesday; 75 leaves 80/6.
        self.assertEqual(offer.judge([0, 76, 0, 0, 20], [0, 80, 0, 0, 30])[0], "accepted")
        self.assertEqual(offer.judge([0, 75, 0, 0, 20], [0, 80, 0, 0, 30])[0], "42")

    def test_opera(self) -> None:
        offer = self.offer(2)
        cost = Fraction(295, 6)
        bids = ((75, "40"), (68, "43"), (66, "43"), (65, "accepted"))
        for high, verdict in bids:
            self.assertEqual(offer.judge([55, 0, 0], [high, 0, 0])[0], verdict)
        second = offer.second_rule(([55, 0, 0], [68, 0, 0]))
        self.assertEqual(second, (70 - cost, 68 - cost, 65 - cost, 55 - cost))
        # With 66 two days lead by more than 65 less their cost for sure: that counts too.
        self.assertEqual(offer.judge([66, 0, 0], [70, 0, 0])[0], "accepted")

    def test_a_value_that_sets_share(self) -> None:
        # Worth 0..9 at the root, whichever leaf is taken: they leave -1..8 and -3..6, and yet
        # the first leads.
        root = Node(0, "choose", 1, 1, None, 1, [1, 2])
        leaves = [Node(1, "buy", 0, 1, 0, 2), Node(2, "buy", 1, 1, 0, 2)]
        bidder = Bidder("b", [0, 0], [root, *leaves])
        prices = [Fraction(1), Fraction(3)]
        offer = Offer(bidder, ([0, 0, 0], [9, 0, 0]), prices, "101", 1)
        table = nets.table_of(offer, 2)
        self.assertEqual(
            [(row.bits, row.least, row.most, row.state) for row in table.rows],
            [
                ("110", -1, 8, nets.OPEN),
                ("000", 0, 0, nets.OPEN),
                ("101", -3, 6, nets.BEHIND),
            ],
        )
        self.assertFalse(table.shares)

    def test_sets_alike_share_a_row(self) -> None:
        # Three alike leaves at a price of 2, worth 3 each: all, and the root takes at most two.
        root = Node(0, "choose", 0, 2, None, 1, [1, 2, 3])
        leaves = [Node(number, "buy", 0, 1, 0, 2) for number in root.children]
        offer = Offer(
            Bidder("b", [0], [root, *leaves]), ([0, 3, 3, 3],) * 2, [Fraction(2)], "1011", 1
        )
        table = nets.table_of(offer, 1)
        self.assertEqual(
            [(row.units, row.state, row.is_provisional) for row in table.rows],
            [([2], nets.SURE, True), ([0], nets.BEHIND, False)],
        )
        self.assertEqual(table.all_sets, 8)


class Many(unittest.TestCase):
    """More sets than can be shown."""

    def offer(self, leaves: int) -> Offer:
        """Leaves of prices 1, 2, 3 .., each worth its price, or up to 10 more or less."""
        root = Node(0, "choose", 0, leaves, None, 1, list(range(1, leaves + 1)))
        nodes = [root, *(Node(child, "buy", child - 1, 1, 0, 2) for child in root.children)]
        prices = [Fraction(child) for child in root.children]
        low = [0, *(child - 10 for child in root.children)]
        high = [0, *(child + 10 for child in root.children)]
        return Offer(Bidder("b", [0] * leaves, nodes), (low, high), prices, "0" * len(nodes), 1)

    def test_those_that_leave_most_are_shown(self) -> None:
        # Any of the 2^6 choices could be best: with all six 60 is left at most, with five 50.
        table = nets.table_of(self.offer(6), 6)
        most = [row.most for row in table.rows]
        self.assertEqual(table.extent, nets.FIRST)
        self.assertEqual(len(table.rows), nets.SHOWN + 1)
        self.assertEqual(most, [60] + [50] * 6 + [40] * 13 + [0])
        self.assertTrue(table.rows[-1].is_provisional)
        self.assertTrue(table.shares)

    def test_all_are_shown_where_they_just_fit(self) -> None:
        with mock.patch.object(nets, "SHOWN", 64):
            # The empty set and the root alone trade the same, so that 65 sets have 64 rows.
            table = nets.table_of(self.offer(6), 6)
            self.assertEqual((table.extent, len(table.rows), table.all_sets), (nets.ALL, 64, 65))
        with mock.patch.object(nets, "SHOWN", 63):
            self.assertEqual(nets.table_of(self.offer(6), 6).extent, nets.FIRST)

    def test_so_many_are_looked_at(self) -> None:
        with mock.patch.object(nets, "LOOKED_AT", 7):
            table = nets.table_of(self.offer(6), 6)
            self.assertEqual((table.extent, len(table.candidates)), (nets.AMONG, 8))
            self.assertEqual([row.most for row in table.rows], [60] + [50] * 6 + [0])
        with mock.patch.object(nets, "LOOKED_AT", 65):
            with mock.patch.object(nets, "SHOWN", 64):
                self.assertEqual(nets.table_of(self.offer(6), 6).extent, nets.ALL)
        self.assertEqual((nets.SHOWN, nets.LOOKED_AT), (20, 1000))

    def test_the_largest_tree(self) -> None:
        table = nets.table_of(self.offer(32), 32)
        self.assertEqual((table.extent, table.all_sets), (nets.FIRST, 1 + 2**32))


if __name__ == "__main__":
    unittest.main()
