"""What a bidder has to know to bid, in sentences: when a bid counts, and why one was refused."""
from __future__ import annotations

from typing import Sequence

from . import numbers, words
from .journal import Bid, Good, Settings
from .nets import ALL, FIRST, LOOKED_AT, SHOWN, SURE, Table
from .rules import FirstRule, Offer, SecondRule

MEANINGS = {
    "accepted": "accepted: these are your intervals from here on",
    "40": "an interval is wider than before",
    "41": "a lower value is above the upper one",
    "42": "it doesn’t tell which set you want at the prices (first rule)",
    "43": "it says too little that is new (second rule)",
    "44": "a bid of yours was accepted in this round already, and the first one counts",
    "46": "it doesn’t have one lower and one upper value for each node",
}


class Advice:
    """The sentences for one bidder in one round."""

    def __init__(self, offer: Offer, goods: Sequence[Good], settings: Settings) -> None:
        self.offer, self.goods, self.settings = offer, goods, settings

    def trade(self, bits: str) -> str:
        """What a set trades, and its nodes."""
        units = self.offer.bidder.units(bits, len(self.goods))
        return f"“{words.trade(units, self.goods)}” ({words.places(bits)})"

    # When the next bid counts

    def provisional(self) -> str:
        """Which set is the provisional one, and where it comes from."""
        weight = self.settings.weight
        where = {100: "lower values", 0: "upper values"}.get(
            weight, f"values that are {weight} % the lower and {100 - weight} % the upper one"
        )
        return (
            f"Your provisional set is {self.trade(self.offer.provisional)}: your part of the best "
            f"trade at {where}."
        )

    def first(self) -> str:
        """The first rule, and how the present intervals stand to it."""
        asks = (
            "First rule: one set has to leave at least as much as every other, whatever your true "
            "values are inside the new intervals; and the provisional set has to do so too, or "
            "leave less than that one whatever they are."
        )
        rule = self.offer.first_rule(self.offer.bounds)
        if rule.holds:
            return f"{asks} Your present intervals pass it, with {self.trade(rule.wanted)}."
        return f"{asks} Your present intervals don’t: {self.untold(rule)}."

    def untold(self, rule: FirstRule) -> str:
        """The set wanted, and that from which it couldn't be told."""
        assert rule.other is not None
        mine = f"by the middles of the intervals you want {self.trade(rule.wanted)}"
        other = self.trade(rule.other)
        if rule.other == self.offer.provisional:
            other = f"your provisional set, {other},"
        if not rule.gap:
            return f"{mine}, but {other} could leave just as much, and isn’t best for sure"
        return f"{mine}, but {other} could leave up to {words.amount(rule.gap)} more"

    def second(self) -> str:
        """The second rule, and what it asks of the next bid."""
        other, lack = self.offer.lack(self.offer.bounds)
        now, improve = self.offer.amount(lack), self.settings.improve
        begins = "Second rule: by your provisional set you may lack "
        if not now:
            return f"{begins}nothing, so this rule asks for nothing more."
        begins += f"up to {words.amount(now)}, against {self.trade(other)}"
        if not improve:
            return f"{begins}. As “improve” is 0, this rule asks for nothing more."
        if now < improve:
            return (
                f"{begins}. That is below {words.amount(improve)} (“improve”), so this rule asks "
                "for nothing more."
            )
        most = words.amount(now - improve)
        asked = f"be at most {most} (less by {words.amount(improve)}, “improve”), or 0"
        if now == improve:
            asked = f"be 0 (less by {words.amount(improve)}, “improve”)"
        return (
            f"{begins}. By the new intervals that has to {asked}; or some set has to leave over "
            f"{most} more than the provisional one, whatever your values are."
        )

    def stands(self, table: Table) -> str:
        """How the sets of the table stand to each other."""
        if [row.state for row in table.candidates] == [SURE]:
            return "No other set can be best: what you want is clear."
        if not table.shares:
            return ""
        return (
            "A value that two sets share counts for both alike, so one may be better for sure "
            "though what they leave overlaps."
        )

    def extent(self, table: Table) -> str:
        """Which sets the table has."""
        if table.extent == ALL:
            every = numbers.plural(table.all_sets, "set")
            return f"Of the {every} of your tree no other could be best at these prices."
        if table.extent == FIRST:
            return f"More sets could be best: these are the {SHOWN} that leave most at most."
        return (
            f"More sets may be best: looked at were the {numbers.whole(LOOKED_AT)} that leave "
            "most at most."
        )

    def sentences(self, table: Table) -> list[str]:
        """All that a bidder has to know for its next bid."""
        counts = (
            "Your next bid counts if it widens no interval and passes both rules at these prices."
        )
        found = [self.provisional(), counts, self.first(), self.second(), self.stands(table)]
        return [sentence for sentence in found if sentence]

    # Why a bid was refused

    def verdict(self, bid: Bid) -> str:
        """The verdict on a bid, and why."""
        means = MEANINGS.get(bid.verdict, "")
        if bid.verdict == "accepted":
            return means
        return f"refused ({bid.verdict}): {means}{self.why(bid)}"

    def why(self, bid: Bid) -> str:
        """What a refusal came from; nothing where the numbers of the bid don't show it."""
        nodes, bounds = len(self.offer.bidder.nodes), (bid.low, bid.high)
        if bid.verdict == "46":
            return f": {len(bid.low)} and {len(bid.high)} for {nodes}"
        if bid.node is not None:
            return self.at_node(bid, bid.node)
        if bid.verdict not in ("42", "43") or (len(bid.low), len(bid.high)) != (nodes, nodes):
            return ""
        first = self.offer.first_rule(bounds)
        if bid.verdict == "42":
            return "" if first.holds else f": {self.untold(first)}"
        second = self.offer.second_rule(bounds)
        return "" if second.holds else f": {self.too_little(bid, second)}"

    def at_node(self, bid: Bid, node: int) -> str:
        """The values at the node at fault."""
        low, high = self.offer.bounds
        if node >= min(len(low), len(bid.low), len(bid.high)):
            return ""
        found = f"{words.amount(bid.low[node])}..{words.amount(bid.high[node])}"
        if bid.verdict == "41":
            return f": {found} at node {node}"
        return f": {found} at node {node}, where {words.interval(low[node], high[node])} stood"

    def too_little(self, bid: Bid, rule: SecondRule) -> str:
        """How much the provisional set may still lack, and how much would have done."""
        other, _ = self.offer.lack((bid.low, bid.high))
        most = words.amount(rule.most)
        asked = f"at most {most}, or 0," if rule.most else "0"
        return (
            f"by your provisional set, {self.trade(self.offer.provisional)}, you may lack up to "
            f"{words.amount(rule.now)}, against {self.trade(other)}; before it was "
            f"{words.amount(rule.before)}, and {asked} would have counted, or a set that leaves "
            f"over {most} more than it for sure"
        )


def values(bid: Bid, before: tuple[list[int], list[int]]) -> list[tuple[str, bool]]:
    """The intervals of a bid by node, and whether each is new; what is 0 throughout is left out.

    The lists of a bid that doesn't count the nodes are given as they are.
    """
    if not len(bid.low) == len(bid.high) == len(before[0]):
        both = (("lower", bid.low), ("upper", bid.high))
        return [(f'{side}: {" ".join(map(str, each)) or "none"}', True) for side, each in both]
    found = []
    for node, ends in enumerate(zip(bid.low, bid.high, *before)):
        if any(ends):
            low, high, *old = ends
            span = words.interval(low, high)
            found.append((f"{node}: {span}", [low, high] != old))
    return found
