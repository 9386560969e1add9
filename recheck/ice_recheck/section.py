"""The section of an exchange: its settings, goods and bidders, and what their makers refuse."""
from __future__ import annotations

from dataclasses import dataclass
from typing import NamedTuple

from .bounds import Bounds
from .records import Records, Rule
from .trees import Choice, Leaf, Tree, greatest

MOST_GOODS, MOST_BIDDERS = 32, 40
MOST_NODES, MOST_NODES_OF_ALL, MOST_DEPTH = 200, 2000, 16


class Settings(NamedTuple):
    """The settings, in the order of their record."""

    weight: int
    close_regret: int
    cap: int
    improve: int
    rounds: int
    branches: int
    derived: int = 0


class Good(NamedTuple):
    """A good; of an exact one all that is sold has to be bought."""

    name: str
    exact: bool


@dataclass
class Bidder:
    """A bidder with its tree and the bounds that the section states."""

    name: str
    tree: Tree
    bounds: Bounds


@dataclass
class Exchange:
    """What the section says."""

    settings: Settings
    goods: list[Good]
    bidders: list[Bidder]

    def bounds(self) -> list[Bounds]:
        """The bounds that the section states, bidder by bidder."""
        return [bidder.bounds for bidder in self.bidders]


def read_exchange(records: Records) -> Exchange:
    """The exchange that the section describes, where no maker refuses it."""
    # Seven numbers pass in each version till the program writes version 3; `order` then in 1, 2.
    settings = Settings(*records.take("settings").fields)
    goods = read_goods(records)
    bidders: list[Bidder] = []
    while not bidders or records.next_is("bidder"):
        bidders.append(read_bidder(records, goods, bidders))
    return Exchange(settings, goods, bidders)


def read_goods(records: Records) -> list[Good]:
    """The goods: at most 32, of distinct names."""
    goods: list[Good] = []
    while not goods or records.next_is("good", "exact"):
        form, (name,) = records.take("good", "exact")
        is_new = all(good.name != name for good in goods)
        records.test(is_new and len(goods) < MOST_GOODS, Rule.EXCHANGE)
        goods.append(Good(name, form == "exact"))
    return goods


def read_bidder(records: Records, goods: list[Good], earlier: list[Bidder]) -> Bidder:
    """A bidder. Its name, the count of bidders and nodes, and its sales are judged at its end."""
    name, own = records.take("bidder").fields
    records.test(len(own) == len(goods), Rule.EXCHANGE)
    bidder = Bidder(name, Tree(), Bounds([], []))
    read_node(records, bidder, len(goods), None, 1)
    nodes = bidder.tree.size + sum(other.tree.size for other in earlier)
    is_new = all(other.name != name for other in earlier)
    is_within = len(earlier) < MOST_BIDDERS and nodes <= MOST_NODES_OF_ALL
    records.test(is_new and is_within and sells_only(bidder.tree, own), Rule.EXCHANGE)
    return bidder


def read_node(records: Records, bidder: Bidder, goods: int, parent: int | None, depth: int) -> int:
    """A node with all that is inside of it; its number."""
    tree, bounds = bidder.tree, bidder.bounds
    form, (*shape, lower, upper) = records.take("node choose", "node buy", "node sell")
    is_within = tree.size < MOST_NODES and depth <= MOST_DEPTH
    records.test(is_within and lower <= upper, Rule.EXCHANGE)
    node = tree.size
    tree.parents.append(parent)
    bounds.lower.append(lower)
    bounds.upper.append(upper)
    if form == "node choose":
        least, most, count = shape
        children = [read_node(records, bidder, goods, node, depth + 1) for _ in range(count)]
        records.test(count > 0 and least <= most <= count, Rule.EXCHANGE)
        tree.choices.append(Choice(node, least, most, children))
    else:
        good, number = shape
        records.test(good < goods, Rule.EXCHANGE)
        tree.leaves.append(Leaf(node, good, number if form == "node buy" else -number))
    return node


def sells_only(tree: Tree, own: list[int]) -> bool:
    """Whether no satisfied set sells more of a good than this."""
    for good, amount in enumerate(own):
        sales = [0] * tree.size
        for leaf in tree.leaves:
            if leaf.good == good:
                sales[leaf.node] = -leaf.units
        if greatest(tree, sales) > amount:
            return False
    return True
