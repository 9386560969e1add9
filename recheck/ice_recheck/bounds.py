"""Bounds: the lower and the upper value of each node of a tree, and profiles inside them."""
from __future__ import annotations

from dataclasses import dataclass

from .trees import NodeSet

HUNDREDTHS = 100  # in which weighted values are counted


@dataclass
class Bounds:
    """The lower and the upper value of each node."""

    lower: list[int]
    upper: list[int]

    def weighted(self, weight: int) -> list[int]:
        """The weighted values, in hundredths."""
        both = zip(self.lower, self.upper)
        return [weight * low + (HUNDREDTHS - weight) * high for low, high in both]

    def against(self, inside: NodeSet) -> list[int]:
        """The profile at which a set is worth least beside any other one."""
        both = zip(inside, self.lower, self.upper)
        return [low if is_inside else high for is_inside, low, high in both]

    def in_favour(self, inside: NodeSet) -> list[int]:
        """The profile at which a set is worth most beside any other one."""
        both = zip(inside, self.lower, self.upper)
        return [high if is_inside else low for is_inside, low, high in both]

    def crossed(self) -> int | None:
        """The least node whose lower value is above its upper one."""
        both = zip(self.lower, self.upper)
        return next((node for node, (low, high) in enumerate(both) if low > high), None)

    def loosened(self, old: Bounds) -> int | None:
        """The least node at which a bound is looser than the old one."""
        all_four = zip(self.lower, old.lower, self.upper, old.upper)
        loose = (low < old_low or high > old_high for low, old_low, high, old_high in all_four)
        return next((node for node, is_loose in enumerate(loose) if is_loose), None)
