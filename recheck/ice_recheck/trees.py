"""Trees of bids: satisfied sets, their value and units, and the greatest value of one."""
from __future__ import annotations

from dataclasses import dataclass, field
from itertools import compress
from math import inf
from typing import NamedTuple

from .records import Rule

NodeSet = list[bool]  # for each node, in preorder, whether it is inside
Gain = int | float  # a whole number, or NOTHING
NOTHING = -inf  # the gain where no set is: less than any number, and so is its sum with any


class Leaf(NamedTuple):
    """A leaf: units above 0 are bought, below 0 sold."""

    node: int
    good: int
    units: int


class Choice(NamedTuple):
    """A choose node: how many of its children a satisfied set has that has the node."""

    node: int
    least: int
    most: int
    children: list[int]


@dataclass
class Tree:
    """The nodes of a bid, numbered in preorder."""

    parents: list[int | None] = field(default_factory=list)
    leaves: list[Leaf] = field(default_factory=list)
    choices: list[Choice] = field(default_factory=list)  # a node stands behind all inside of it

    @property
    def size(self) -> int:
        """The number of nodes."""
        return len(self.parents)

    def outer(self, node: int) -> set[int]:
        """The node and all that it stands inside of."""
        found: set[int] = set()
        above: int | None = node
        while above is not None:
            found.add(above)
            above = self.parents[above]
        return found


@dataclass(frozen=True, eq=False)
class Fixing:
    """The nodes that a set must have, and those that it never has; the others are free."""

    must: frozenset[int] = frozenset()
    never: frozenset[int] = frozenset()
    forced: frozenset[int] = frozenset()  # the nodes of must, and those that they stand inside of

    def is_free(self, node: int) -> bool:
        """Whether the node has no mark."""
        return node not in self.must and node not in self.never

    def with_must(self, tree: Tree, node: int) -> Fixing:
        """The same with one more node that a set must have."""
        return Fixing(self.must | {node}, self.never, self.forced | tree.outer(node))

    def with_never(self, node: int) -> Fixing:
        """The same with one more node that a set never has."""
        return Fixing(self.must, self.never | {node}, self.forced)


FREE = Fixing()


def value(weights: list[int], inside: NodeSet) -> int:
    """The sum of the weights of a set's nodes."""
    return sum(compress(weights, inside))


def units(tree: Tree, inside: NodeSet, goods: int) -> list[int]:
    """What the leaves of a set buy less what they sell, good by good."""
    found = [0] * goods
    for leaf in tree.leaves:
        if inside[leaf.node]:
            found[leaf.good] += leaf.units
    return found


def broken_rule(tree: Tree, inside: NodeSet) -> Rule | None:
    """Why a set isn't satisfied: the first fault of its least node at fault."""
    choices = {choice.node: choice for choice in tree.choices}
    for node, parent in enumerate(tree.parents):
        if not inside[node]:
            continue
        if parent is not None and not inside[parent]:
            return Rule.PARENT
        if node in choices:
            count = sum(inside[child] for child in choices[node].children)
            if count < choices[node].least:
                return Rule.FEW
            if count > choices[node].most:
                return Rule.MANY
    return None


def gains(tree: Tree, weights: list[int], fixing: Fixing = FREE) -> list[Gain]:
    """For each node the greatest value of what is inside of it, where it is in the set itself.

    A choose node has its forced children, and of the others those that gain most: up to `least`
    whatever they gain, and up to `most` where they gain anything.
    """
    found: list[Gain] = list(weights)
    for node in fixing.never:
        found[node] = NOTHING
    for node, least, most, children in tree.choices:
        if fixing.forced:
            forced = [found[child] for child in children if child in fixing.forced]
            others = [found[child] for child in children if child not in fixing.forced]
            found[node] += sum(forced)
            least, most = max(0, least - len(forced)), most - len(forced)
        else:
            others = [found[child] for child in children]
        if least > len(others) or most < 0:
            found[node] = NOTHING
        elif least == len(others):
            found[node] += sum(others)
        else:
            others.sort(reverse=True)
            wanted = (gain for gain in others[least:most] if gain > 0)
            found[node] += sum(others[:least]) + sum(wanted)
    return found


def greatest(tree: Tree, weights: list[int], fixing: Fixing = FREE) -> Gain:
    """The greatest value of a satisfied set that meets the fixing; NOTHING where there is none."""
    root = gains(tree, weights, fixing)[0]
    return root if 0 in fixing.forced else max(0, root)


def best_set(tree: Tree, weights: list[int]) -> NodeSet:
    """A satisfied set of the greatest value."""
    found = gains(tree, weights)
    inside = [False] * tree.size
    inside[0] = found[0] > 0
    for node, least, most, children in reversed(tree.choices):
        if inside[node]:
            ranked = sorted(children, key=lambda child: found[child], reverse=True)
            for place, child in enumerate(ranked):
                inside[child] = place < least or place < most and found[child] > 0
    return inside


def net_weights(tree: Tree, weights: list[int], rates: list[int]) -> list[int]:
    """The weights less what the units of the leaves cost, so that a set's value is its net."""
    net = weights.copy()
    for node, good, number in tree.leaves:
        net[node] -= rates[good] * number
    return net
