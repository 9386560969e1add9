"""Satisfied sets of one tree, exactly: how many there are, a best one, and all in their order.

A set is a text of bits, one a node in preorder, as in a journal; weights are whole numbers.
"""
from __future__ import annotations

import heapq
from itertools import count
from typing import Iterator, NamedTuple, Sequence

from .journal import Node

Weights = Sequence[int]


class Ranked(NamedTuple):
    """A satisfied set and what it weighs."""

    weight: int
    bits: str


def weight_of(weights: Weights, bits: str) -> int:
    """The weight of a set."""
    return sum(weight for weight, bit in zip(weights, bits) if bit == "1")


def bits_of(taken: set[int], nodes: Sequence[Node]) -> str:
    """The set of these nodes as bits."""
    return "".join("01"[node.number in taken] for node in nodes)


def gains(nodes: Sequence[Node], weights: Weights) -> list[int]:
    """What each node adds at most where it is inside, with a best choice of what is below it."""
    found = list(weights)
    for node in reversed(nodes):
        if node.children:
            below = sorted((found[child] for child in node.children), reverse=True)
            forced, free = below[: node.first], below[node.first : node.second]
            found[node.number] += sum(forced) + sum(gain for gain in free if gain > 0)
    return found


def best(nodes: Sequence[Node], weights: Weights) -> Ranked:
    """A satisfied set that no other outweighs; where nothing weighs above 0, the empty one."""
    gain = gains(nodes, weights)
    taken: set[int] = set()
    todo = [0] if gain[0] > 0 else []
    while todo:
        node = nodes[todo.pop()]
        taken.add(node.number)
        below = sorted(node.children, key=lambda child: -gain[child])
        free = below[node.first : node.second]
        todo += below[: node.first] + [child for child in free if gain[child] > 0]
    return Ranked(max(0, gain[0]), bits_of(taken, nodes))


def how_many(nodes: Sequence[Node]) -> int:
    """The number of satisfied sets, the empty one among them."""
    inside = [1] * len(nodes)
    for node in reversed(nodes):
        if node.kind == "choose":
            ways = [1]
            for child in node.children:
                more = [0, *(number * inside[child] for number in ways)]
                ways = [here + there for here, there in zip([*ways, 0], more)]
            inside[node.number] = sum(ways[node.first : node.second + 1])
    return 1 + inside[0]


# All sets in their order. A set is found by decisions: each child of a node inside is taken or
# passed, from the left to the right. What is still possible behind a decision is known exactly, so
# the greatest possible weight leads from each set to the next in at most one decision a node.

Rest = list[list[int | None]]


class Choices:
    """What the children of a choose node can still add, by the next one and how many are taken."""

    def __init__(self, node: Node, inside: Sequence[int | None]) -> None:
        self.node, least, most = node, node.first, node.second
        row: list[int | None] = [0 if taken >= least else None for taken in range(most + 1)]
        self.rest: Rest = [row]
        for child in reversed(node.children):
            gain, after = inside[child], self.rest[-1]
            more = [*after[1:], None]
            with_it = [None if rest is None or gain is None else rest + gain for rest in more]
            self.rest.append(
                [
                    max((way for way in ways if way is not None), default=None)
                    for ways in zip(after, with_it)
                ]
            )
        self.rest.reverse()

    def left(self, place: int, taken: int) -> int | None:
        """The most that children from this place on add where so many are taken; None: no way."""
        return self.rest[place][taken] if taken <= self.node.second else None


class Open(NamedTuple):
    """A node inside whose children from a place on are undecided; `below` it lie others."""

    node: int
    place: int
    taken: int
    below: Open | None


class Taken(NamedTuple):
    """The nodes that are taken so far, the last one first."""

    node: int
    before: Taken | None


class Search:
    """The satisfied sets of a tree from the heaviest on."""

    def __init__(self, nodes: Sequence[Node], weights: Weights) -> None:
        self.nodes = nodes
        self.inside: list[int | None] = list(weights)
        self.choices: dict[int, Choices] = {}
        for node in reversed(nodes):
            if node.kind == "choose":
                choices = self.choices[node.number] = Choices(node, self.inside)
                rest = choices.left(0, 0)
                own = weights[node.number]
                self.inside[node.number] = None if rest is None else own + rest
        self.heap: list[tuple[int, int, int, Open | None, Taken | None]] = []
        self.serial = count()

    def push(self, weight: int, depth: int, undecided: Open | None, taken: Taken | None) -> None:
        """Keeps what is decided, with the most that it can weigh; the deepest comes first."""
        heapq.heappush(self.heap, (-weight, -depth, next(self.serial), undecided, taken))

    def enter(self, node: int, below: Open | None) -> Open | None:
        """What is undecided where a node is taken."""
        return Open(node, 0, 0, below) if node in self.choices else below

    def sets(self) -> Iterator[Ranked]:
        """All satisfied sets, each once."""
        self.push(0, 0, None, None)
        if self.inside[0] is not None:
            self.push(self.inside[0], 0, self.enter(0, None), Taken(0, None))
        while self.heap:
            minus, depth, _, undecided, taken = heapq.heappop(self.heap)
            while undecided and undecided.place == len(self.nodes[undecided.node].children):
                undecided = undecided.below
            if undecided is None:
                yield Ranked(-minus, self.bits(taken))
            else:
                self.decide(-minus, 1 - depth, undecided, taken)

    def decide(self, weight: int, depth: int, at: Open, taken: Taken | None) -> None:
        """Takes the next child, and passes it."""
        choices, child = self.choices[at.node], self.nodes[at.node].children[at.place]
        here = choices.left(at.place, at.taken)
        passed = choices.left(at.place + 1, at.taken)
        rest, gain = choices.left(at.place + 1, at.taken + 1), self.inside[child]
        assert here is not None
        if rest is not None and gain is not None:
            after = Open(at.node, at.place + 1, at.taken + 1, at.below)
            more = weight - here + rest + gain
            self.push(more, depth, self.enter(child, after), Taken(child, taken))
        if passed is not None:
            after = Open(at.node, at.place + 1, at.taken, at.below)
            self.push(weight - here + passed, depth, after, taken)

    def bits(self, taken: Taken | None) -> str:
        """The set of the nodes that are taken."""
        found = set()
        while taken:
            found.add(taken.node)
            taken = taken.before
        return bits_of(found, self.nodes)


def in_order(nodes: Sequence[Node], weights: Weights) -> Iterator[Ranked]:
    """All satisfied sets from the heaviest on; each takes at most one step a node more."""
    return Search(nodes, weights).sets()
