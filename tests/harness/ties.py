"""Markets whose trades tie at lower values, and in plain code which regrets the rule of ties leaves
possible: all assignments are tried."""
from __future__ import annotations

import io
import random
from collections.abc import Iterator, Sequence
from functools import cached_property
from itertools import product
from typing import Any

from harness.judge import is_feasible, satisfied_sets, worth
from ice_page.journal import Journal, read_journal
from ice_page.lines import Lines

# So many rivals are taken as the final trade at most.
TRIES = 5

# One set of each bidder.
Assignment = tuple[str, ...]


class Ties:
    """The market of a journal at its opening bounds, with all its assignments."""

    def __init__(self, data: bytes) -> None:
        """The market of a journal that has at least a final group."""
        self.journal: Journal = read_journal(Lines(io.BytesIO(data)))
        self.bounds = self.journal.settlements[0].bounds

    @cached_property
    def assignments(self) -> Sequence[Assignment]:
        """All that are feasible."""
        goods = len(self.journal.goods)
        choices = []
        for bidder in self.journal.bidders:
            sets = satisfied_sets(bidder)
            assert sets is not None
            choices.append([(bits, bidder.units(bits, goods)) for bits in sets])
        return [
            tuple(bits for bits, _ in taken)
            for taken in product(*choices)
            if is_feasible(self.journal, [units for _, units in taken])
        ]

    def lower(self, sets: Assignment) -> int:
        """What an assignment is worth at lower values."""
        return sum(worth(bits, low) for bits, (low, _) in zip(sets, self.bounds))

    def lead(self, other: Assignment, sets: Assignment) -> int:
        """By how much an assignment may beat another: nodes of both count alike on both sides."""
        most = -self.lower(sets)
        for bits, mine, (low, high) in zip(other, sets, self.bounds):
            most += worth(bits, [a if bit == "1" else b for a, b, bit in zip(low, high, mine)])
        return most

    def regret(self, sets: Assignment) -> int:
        """The regret of an assignment."""
        return max(self.lead(other, sets) for other in self.assignments)

    def rivals(self, sets: Assignment) -> Iterator[Assignment]:
        """All rivals of an assignment."""
        regret = self.regret(sets)
        return (other for other in self.assignments if self.lead(other, sets) == regret)

    @cached_property
    def best(self) -> Sequence[Assignment]:
        """The best assignments at lower values."""
        most = max(map(self.lower, self.assignments))
        return [sets for sets in self.assignments if self.lower(sets) == most]

    def ends(self, sets: Assignment, tries: int = TRIES) -> set[int]:
        """The regrets that may be shown where this assignment is found first."""
        regret = self.regret(sets)
        if regret <= self.journal.settings.close_regret or tries == 0:
            return {regret}
        found = set()
        for rival in self.rivals(sets):
            is_taken = rival in self.best and self.regret(rival) < regret
            found |= self.ends(rival, tries - 1) if is_taken else {regret}
        return found

    @cached_property
    def first_regrets(self) -> set[int]:
        """The regrets of the best assignments."""
        return set(map(self.regret, self.best))

    @cached_property
    def last_regrets(self) -> set[int]:
        """The regrets that may be shown, whichever of the best is found first."""
        return set().union(*map(self.ends, self.best))


def leaf(word: str, good: str, low: int, high: int) -> dict[str, Any]:
    """One unit that is bought or sold."""
    return {word: good, "units": 1, "lo": low, "hi": high}


def choice(least: int, most: int, low: int, high: int, *of: dict[str, Any]) -> dict[str, Any]:
    """A choice among trees."""
    return {"choose": [least, most], "lo": low, "hi": high, "of": list(of)}


def bidder(name: str, tree: dict[str, Any], **own: int) -> dict[str, Any]:
    """A bidder."""
    return {"name": name, "own": own, "tree": tree}


def market(close_regret: int, goods: str, bidders: Sequence[dict[str, Any]]) -> dict[str, Any]:
    """A market, in JSON."""
    settings = {"weight": 50, "cap": 1000, "improve": 1, "rounds": 5, "branches": 500}
    return {
        "settings": {**settings, "close_regret": close_regret},
        "goods": list(goods),
        "bidders": list(bidders),
    }


def drawn(draw: random.Random) -> dict[str, Any]:
    """A market of one good or two, whose buyers differ in little but what they may tell yet."""
    goods = draw.choice(("A", "AB"))
    bidders = []
    for good in goods:
        low = draw.choice((-10, -10, -15))
        sale = leaf("sell", good, low, draw.choice((low, low, low + 5)))
        bidders.append(bidder(f"s{good}", sale, **{good: 1}))
    for number in range(draw.choice((2, 3))):
        low = draw.choice((50, 50, 50, 60))
        room = draw.choice((0, 10, 20, 30, 50))
        kind = draw.choice(("one", "either", "both")) if len(goods) == 2 else "one"
        if kind == "one":
            tree = leaf("buy", draw.choice(goods), low, low + room)
        elif kind == "either":
            more = draw.choice((0, 10, 20))
            tree = choice(1, 1, 0, 0, leaf("buy", "A", low, low + room), leaf("buy", "B", 50, 50 + more))
        else:
            tree = choice(2, 2, 2 * low, 2 * low + room, leaf("buy", "A", 0, 0), leaf("buy", "B", 0, 0))
        bidders.append(bidder(f"b{number}", tree))
    return market(draw.choice((0, 0, 10)), goods, bidders)
