"""Logs: steps that bound the value of every assignment, side by side."""
from __future__ import annotations

from array import array

from .grammar import Record
from .records import Records, Rule
from .section import Exchange
from .trees import FREE, NOTHING, Fixing, Gain, greatest

Side = list[Fixing]  # for each bidder the marks of its nodes
SCALES = {1: 64, 2: 64, 3: 4096}  # of multipliers and tolls, by version
LEAVES = {1: "leaf", 2: "near", 3: "tolled"}  # the word for a leaf, by version


class Tolled:
    """What a log has a multiplier or a toll of: a good, or a derived good.

    An assignment takes at most the limit of it. Of a good, whose units are its amounts, it is 0.
    """

    def __init__(self, limit: int, is_exact: bool = False) -> None:
        self.limit = limit
        self.is_exact = is_exact  # whether its multiplier may be negative
        # For each bidder who takes of it the nodes, and the amount of each of them.
        self.amounts: dict[int, tuple[array[int], array[int]]] = {}

    def put(self, bidder: int, amounts: list[tuple[int, int]]) -> None:
        """The amounts of a bidder, as pairs of a node and its amount."""
        nodes, numbers = zip(*amounts)
        self.amounts[bidder] = array("B", nodes), array("i", numbers)

    def weigh(self, weights: list[list[int]], change: int) -> None:
        """What is taken of it weighs so much more or less: in some weights, bidder by bidder."""
        for bidder, (nodes, amounts) in self.amounts.items():
            own = weights[bidder]
            for node, amount in zip(nodes, amounts):
                own[node] += change * amount


def tolled_goods(exchange: Exchange) -> list[Tolled]:
    """The goods of an exchange."""
    goods = [Tolled(0, good.exact) for good in exchange.goods]
    for number, bidder in enumerate(exchange.bidders):
        for good, tolled in enumerate(goods):
            leaves = [(leaf.node, leaf.units) for leaf in bidder.tree.leaves if leaf.good == good]
            if leaves:
                tolled.put(number, leaves)
    return goods


class Bounding:
    """The bounds of sides at weights, multipliers and tolls.

    What a bidder adds is kept until its marks, or the rate of what it takes of, are others.
    """

    def __init__(
        self, exchange: Exchange, tolled: list[Tolled], weights: list[list[int]], version: int
    ) -> None:
        self.trees = [bidder.tree for bidder in exchange.bidders]
        self.goods = len(exchange.goods)
        self.tolled = tolled  # the goods, and the derived goods before this log
        self.leaf, self.scale = LEAVES[version], SCALES[version]
        self.rates = [0] * len(tolled)  # multipliers and tolls
        self.allowed = 0  # the sum of the rates times the limits
        # The weights, scaled, less what is taken at the rates: the value of a set is its net.
        self.net_weights = [[self.scale * weight for weight in row] for row in weights]
        self.kept: list[tuple[Fixing, Gain] | None] = [None] * len(self.trees)

    def move(self, index: int, rate: int) -> None:
        """Takes another rate."""
        tolled, change = self.tolled[index], rate - self.rates[index]
        self.rates[index] = rate
        self.allowed += change * tolled.limit
        tolled.weigh(self.net_weights, -change)
        for bidder in tolled.amounts:
            self.kept[bidder] = None

    def net(self, bidder: int, fixing: Fixing) -> Gain:
        """The greatest net of the bidder's sets that meet the fixing, scaled."""
        kept = self.kept[bidder]
        if kept is None or kept[0] is not fixing:
            kept = fixing, greatest(self.trees[bidder], self.net_weights[bidder], fixing)
            self.kept[bidder] = kept
        return kept[1]

    def is_above(self, side: Side, target: int) -> bool:
        """Whether the side isn't dead, and its bound is above the target."""
        total = sum(self.net(bidder, fixing) for bidder, fixing in enumerate(side))
        return total != NOTHING and (total + self.allowed) // self.scale > target

    def has_set(self, side: Side, bidder: int) -> bool:
        """Whether the bidder has a set that meets its marks."""
        tree = self.trees[bidder]
        return greatest(tree, [0] * tree.size, side[bidder]) != NOTHING


def check_log(
    records: Records, bounding: Bounding, target: int, left_out: int | None = None
) -> None:
    """Reads a log to its end; the root of the bidder that is left out is never inside."""
    start = [FREE] * len(bounding.trees)
    if left_out is not None:
        start[left_out] = FREE.with_never(0)
    sides = [start]
    while sides:
        side = sides.pop()
        record = records.take("branch", "dead", bounding.leaf)
        if record.form == "branch":
            sides += split(records, bounding, side, *record.fields)
        elif record.form == "dead":
            (bidder,) = record.fields
            is_alive = bidder >= len(side) or bounding.has_set(side, bidder)
            records.test(not is_alive, Rule.ALIVE)
        else:
            move(records, bounding, record)
            records.test(not bounding.is_above(side, target), Rule.ABOVE)


def split(records: Records, bounding: Bounding, side: Side, bidder: int, node: int) -> list[Side]:
    """The two sides of a branch: last the one that must have the node, which comes first."""
    is_there = bidder < len(side) and node < bounding.trees[bidder].size
    records.test(is_there and side[bidder].is_free(node), Rule.FIXED)
    without, having = side.copy(), side.copy()
    without[bidder] = side[bidder].with_never(node)
    having[bidder] = side[bidder].with_must(bounding.trees[bidder], node)
    return [without, having]


def move(records: Records, bounding: Bounding, record: Record) -> None:
    """Takes the multipliers of a leaf, or what it changes of those before it, and of the tolls."""
    (changes,) = record.fields
    if record.form == "leaf":
        records.test(len(changes) == bounding.goods, Rule.ORDER)
        both = zip(range(bounding.goods), changes, bounding.rates)
        changes = [(good, rate) for good, rate, before in both if rate != before]
    for index, rate in changes:
        is_change = index < len(bounding.rates) and bounding.rates[index] != rate
        records.test(is_change, Rule.NEAR)
    for index, rate in changes:
        records.test(rate >= 0 or bounding.tolled[index].is_exact, Rule.SIGN)
        bounding.move(index, rate)
