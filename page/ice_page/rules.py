"""The activity rules for one bidder in one round, exactly, as docs/definitions.md states them.

Nets are values less what units cost at the prices. Here they are whole numbers: times the least
common denominator of the prices, which `Offer.amount` takes away again.
"""
from __future__ import annotations

from dataclasses import dataclass
from fractions import Fraction
from functools import cached_property
from math import lcm
from typing import NamedTuple, Sequence

from . import sets
from .journal import Bidder, Bounds, Journal, Settlement


class FirstRule(NamedTuple):
    """Whether bounds tell which set a bidder wants.

    `wanted` is a best set by the middles of the intervals, and the provisional one where that is
    one of several: where the rule holds it is best whatever the values are. Else `other` could
    leave more by `gap`; or it is the provisional set, `gap` may be 0, and it is neither best too
    nor behind `wanted` whatever the values are.
    """

    wanted: str
    other: str | None = None
    gap: Fraction = Fraction(0)

    @property
    def holds(self) -> bool:
        """Whether it does."""
        return self.other is None


class SecondRule(NamedTuple):
    """Whether bounds say something new.

    What the bidder may lack at most by its provisional set, before and now; what it may lack
    after a bid; and by how much some set beats the provisional one whatever the values are.
    """

    before: Fraction
    now: Fraction
    most: Fraction
    gain: Fraction

    @property
    def holds(self) -> bool:
        """Whether it does."""
        return self.now == 0 or self.now <= self.most or self.gain > self.most


@dataclass(frozen=True)
class Offer:
    """What a round begins with for one bidder: its bounds, the prices and its provisional set."""

    bidder: Bidder
    bounds: Bounds
    prices: Sequence[Fraction]
    provisional: str
    improve: int

    @cached_property
    def scale(self) -> int:
        """What nets are multiplied with to be whole."""
        return lcm(*(price.denominator for price in self.prices))

    @cached_property
    def costs(self) -> list[int]:
        """What each node costs at the prices; below 0 where it sells."""
        costs = []
        for node in self.bidder.nodes:
            units = {"buy": node.second, "sell": -node.second}.get(node.kind, 0)
            price = self.prices[node.first] * self.scale if units else Fraction(0)
            costs.append(int(price) * units)
        return costs

    def amount(self, net: int) -> Fraction:
        """An amount of money."""
        return Fraction(net, self.scale)

    def cost(self, bits: str) -> Fraction:
        """What a set costs."""
        return self.amount(sets.weight_of(self.costs, bits))

    def nets(self, values: Sequence[int]) -> list[int]:
        """The net of each node at these values."""
        return [self.scale * value - cost for value, cost in zip(values, self.costs)]

    def against(self, bits: str, bounds: Bounds) -> list[int]:
        """The nets at the values worst for a set: lower ones on it, upper ones elsewhere."""
        low, high = bounds
        return self.nets([a if bit == "1" else b for bit, a, b in zip(bits, low, high)])

    def in_favour(self, bits: str, bounds: Bounds) -> list[int]:
        """The nets at the values best for a set: upper ones on it, lower ones elsewhere."""
        low, high = bounds
        return self.nets([b if bit == "1" else a for bit, a, b in zip(bits, low, high)])

    def lead(self, bits: str, nets: Sequence[int]) -> tuple[str, int]:
        """The best set at these nets, and by how much it leads a set."""
        ahead = sets.best(self.bidder.nodes, nets)
        return ahead.bits, ahead.weight - sets.weight_of(nets, bits)

    def could_be_best(self, bits: str, bounds: Bounds) -> bool:
        """Whether a set is best under some values inside the bounds."""
        return self.lead(bits, self.in_favour(bits, bounds))[1] == 0

    def is_best(self, bits: str, bounds: Bounds) -> bool:
        """Whether a set is best under all values inside the bounds."""
        return self.lead(bits, self.against(bits, bounds))[1] == 0

    def lack(self, bounds: Bounds) -> tuple[str, int]:
        """What the bidder may lack at most by its provisional set, and by which set."""
        return self.lead(self.provisional, self.against(self.provisional, bounds))

    def first_rule(self, bounds: Bounds) -> FirstRule:
        """The first rule on new bounds."""
        own = self.provisional
        middles = [
            self.scale * (low + high) - 2 * cost for low, high, cost in zip(*bounds, self.costs)
        ]
        favourite, lead = self.lead(own, middles)
        wanted = favourite if lead else own
        other, lead = self.lead(wanted, self.against(wanted, bounds))
        if lead:
            return FirstRule(wanted, other, self.amount(lead))
        nets = self.in_favour(own, bounds)
        behind = sets.weight_of(nets, wanted) - sets.weight_of(nets, own)
        if behind > 0 or self.is_best(own, bounds):
            return FirstRule(wanted)
        return FirstRule(wanted, own, self.amount(-behind))

    def second_rule(self, bounds: Bounds) -> SecondRule:
        """The second rule on new bounds."""
        before, now = (self.amount(self.lack(each)[1]) for each in (self.bounds, bounds))
        _, gain = self.lead(self.provisional, self.in_favour(self.provisional, bounds))
        return SecondRule(before, now, before - self.improve, self.amount(gain))

    def judge(self, low: list[int], high: list[int]) -> tuple[str, int | None]:
        """The verdict on a first bid of the round, with the node at fault where it names one."""
        nodes = len(self.bidder.nodes)
        if (len(low), len(high)) != (nodes, nodes):
            return "46", None
        for node, (least, most) in enumerate(zip(low, high)):
            if least > most:
                return "41", node
        for node, (old, new) in enumerate(zip(zip(*self.bounds), zip(low, high))):
            if new[0] < old[0] or new[1] > old[1]:
                return "40", node
        if not self.first_rule((low, high)).holds:
            return "42", None
        return ("accepted" if self.second_rule((low, high)).holds else "43"), None


def offer(journal: Journal, settlement: Settlement, number: int) -> Offer | None:
    """What a settlement offers a bidder; None where no round follows it."""
    group = settlement.group("provisional")
    if settlement.prices is None or group is None:
        return None
    bounds = settlement.bounds[number]
    own, improve = group.sets[number], journal.settings.improve
    return Offer(journal.bidders[number], bounds, settlement.prices, own, improve)
