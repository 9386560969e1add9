"""Verdicts: whether new bounds of a bidder count, by both activity rules."""
from __future__ import annotations

from dataclasses import dataclass

from .bounds import Bounds
from .grammar import Record
from .prices import Prices
from .trees import NodeSet, Tree, best_set, greatest, net_weights, value

ACCEPTED = Record("verdict accepted", [])


@dataclass
class Judge:
    """New bounds of a bidder, and what they are judged at: all as its round began."""

    tree: Tree
    prices: Prices
    provisional: NodeSet
    improve: int
    old: Bounds
    new: Bounds

    def net(self, weights: list[int]) -> list[int]:
        """Weights by which a set's value is its net, times the denominator of the prices."""
        scaled = [self.prices.denominator * weight for weight in weights]
        return net_weights(self.tree, scaled, self.prices.numerators)

    def lead(self, weights: list[int], inside: NodeSet) -> int:
        """How far the greatest net is above that of this set."""
        net = self.net(weights)
        return int(greatest(self.tree, net)) - value(net, inside)

    def is_always_best(self, inside: NodeSet) -> bool:
        """Whether no set has a greater net than this one, under any profile of the new bounds."""
        return self.lead(self.new.against(inside), inside) == 0

    def wanted_set(self) -> NodeSet:
        """A set that is always best, where there is one: the best one in the middle.

        A set that is always best leads this one nowhere by less than 0, and by 0 in the middle; so
        it leads by 0 everywhere, and this one is always best too. What is taken is twice the
        middle, at twice the prices.
        """
        sums = [low + high for low, high in zip(self.new.lower, self.new.upper)]
        scaled = [self.prices.denominator * weight for weight in sums]
        rates = [2 * numerator for numerator in self.prices.numerators]
        return best_set(self.tree, net_weights(self.tree, scaled, rates))

    def tells_what_is_wanted(self) -> bool:
        """The first activity rule."""
        wanted = self.wanted_set()
        if not self.is_always_best(wanted):
            return False
        net = self.net(self.new.in_favour(self.provisional))
        falls_behind = value(net, self.provisional) < value(net, wanted)
        return falls_behind or self.is_always_best(self.provisional)

    def says_something_new(self) -> bool:
        """The second activity rule."""
        provisional = self.provisional
        loss = self.lead(self.new.against(provisional), provisional)
        before = self.lead(self.old.against(provisional), provisional)
        gain = self.lead(self.new.in_favour(provisional), provisional)
        most = before - self.improve * self.prices.denominator
        return loss == 0 or loss <= most or gain > most

    def verdict(self) -> Record:
        """The verdict on the new bounds, where none of the bidder was accepted in the round."""
        if {len(self.new.lower), len(self.new.upper)} != {self.tree.size}:
            return Record("verdict 46", [])
        crossed, loosened = self.new.crossed(), self.new.loosened(self.old)
        if crossed is not None:
            return Record("verdict 41", [crossed])
        if loosened is not None:
            return Record("verdict 40", [loosened])
        if not self.tells_what_is_wanted():
            return Record("verdict 42", [])
        return ACCEPTED if self.says_something_new() else Record("verdict 43", [])
