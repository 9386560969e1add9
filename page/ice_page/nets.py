"""The table of nets: the sets of one bidder that could be best at the prices of a round."""
from __future__ import annotations

from dataclasses import dataclass
from fractions import Fraction
from typing import NamedTuple

from . import sets
from .rules import Offer

SHOWN, LOOKED_AT = 20, 1000
SURE, OPEN, BEHIND = "best for sure", "open", "behind"
ALL, FIRST, AMONG = "all", "the first ones", "among those looked at"

Sameness = tuple[tuple[int, ...], tuple[int, ...], int]


class Row(NamedTuple):
    """A set: what it trades and costs, what it leaves at least and at most, and how it stands."""

    bits: str
    units: list[int]
    cost: Fraction
    least: Fraction
    most: Fraction
    state: str
    is_provisional: bool


@dataclass
class Table:
    """The sets that could be best, those that leave most at most first, and then two others.

    These are the provisional set and that of no nodes, where they are behind. Sets that trade the
    same and are worth the same whatever the values are, share a row. `extent` is ALL where these
    are all that could be best; FIRST where there are more, and these leave most at most; and AMONG
    where only so many sets were looked at, those that leave most at most. `all_sets` is the number
    of satisfied sets of the tree, and `shares` tells that an unsettled value stands in several of
    those that could be best.
    """

    rows: list[Row]
    extent: str
    all_sets: int
    shares: bool

    @property
    def candidates(self) -> list[Row]:
        """The rows of sets that could be best."""
        return [row for row in self.rows if row.state != BEHIND]


class Maker:
    """Makes the table."""

    def __init__(self, offer: Offer, goods: int) -> None:
        self.offer, self.goods = offer, goods
        self.low, self.high = map(offer.nets, offer.bounds)
        self.same: dict[Sameness, Row] = {}

    def sameness(self, bits: str) -> Sameness:
        """What two sets have in common that leave the same whatever the values are."""
        units, sure, unsure = self.offer.bidder.units(bits, self.goods), 0, []
        for node, (bit, low, high) in enumerate(zip(bits, *self.offer.bounds)):
            if bit == "1" and low == high:
                sure += low
            elif bit == "1":
                unsure.append(node)
        return tuple(units), tuple(unsure), sure

    def row(self, bits: str, state: str) -> Row:
        """The row of a set."""
        offer = self.offer
        least, most = (
            offer.amount(sets.weight_of(nets, bits)) for nets in (self.low, self.high)
        )
        own = self.sameness(bits) == self.sameness(offer.provisional)
        units = offer.bidder.units(bits, self.goods)
        return Row(bits, units, offer.cost(bits), least, most, state, own)

    def state(self, bits: str) -> str:
        """How a set stands."""
        bounds = self.offer.bounds
        if not self.offer.could_be_best(bits, bounds):
            return BEHIND
        return SURE if self.offer.is_best(bits, bounds) else OPEN

    def table(self) -> Table:
        """The table. A set that leaves less at most than another at least is never best."""
        nodes = self.offer.bidder.nodes
        least = sets.best(nodes, self.low).weight
        extent = ALL
        for number, (weight, bits) in enumerate(sets.in_order(nodes, self.high)):
            if weight < least:
                break
            if number == LOOKED_AT:
                extent = AMONG
                break
            key, state = self.sameness(bits), self.state(bits)
            if key in self.same or state == BEHIND:
                continue
            if len(self.same) == SHOWN:
                extent = FIRST
                break
            self.same[key] = self.row(bits, state)
        return Table(self.rows(), extent, sets.how_many(nodes), self.shares())

    def rows(self) -> list[Row]:
        """The sets that could be best, the provisional one and that of no nodes."""
        found = dict(self.same)
        for bits in (self.offer.provisional, "0" * len(self.offer.bidder.nodes)):
            key = self.sameness(bits)
            if key not in found:
                found[key] = self.row(bits, self.state(bits))
        return list(found.values())

    def shares(self) -> bool:
        """Whether a value that isn't settled stands in several of the sets that could be best."""
        unsure = [node for _, nodes, _ in self.same for node in nodes]
        return len(unsure) > len(set(unsure))


def table_of(offer: Offer, goods: int) -> Table:
    """The table of nets of an offer."""
    return Maker(offer, goods).table()
