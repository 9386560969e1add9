"""Lots of alike units: any number of them, or all or none."""
from __future__ import annotations

from .table import Bidder, Table

MOST_TOLD, MOST_NAMED = 5, 3


def notes_of_lots(table: Table) -> list[str]:
    """A word for each seller that can't sell a good one by one, of the first where many can't."""
    notes = [note for bidder in table.bidders for note in notes_of_bidder(bidder)]
    left = len(notes) - MOST_TOLD
    return notes[:MOST_TOLD] + [f"lots of all or none: and {left} more"] * (left > 0)


def notes_of_bidder(bidder: Bidder) -> list[str]:
    """The same of one bidder: the smallest lot of a good that it sells alone has several units."""
    least: dict[str, int] = {}
    for package in bidder.packages:
        for good, units in package.units.items():
            if len(package.units) == 1 and units < 0:
                least[good] = min(-units, least.get(good, -units))
    alike: dict[int, list[str]] = {}
    for good, units in least.items():
        if units > 1:
            alike.setdefault(units, []).append(good)
    return [
        f"{bidder.name} sells {units} of {goods[0]} in one lot, all or none{likewise(goods[1:])}: "
        f"a line `each` sells any number"
        for units, goods in alike.items()
    ]


def likewise(goods: list[str]) -> str:
    """Other goods that are sold in the same way."""
    left = len(goods) - MOST_NAMED
    names = ", ".join(goods[:MOST_NAMED]) + (f" and {left} more" if left > 0 else "")
    return f" (likewise {names})" if goods else ""
