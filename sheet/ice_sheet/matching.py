"""Whether the lines of a table are the packages of a market, in any order."""
from __future__ import annotations

from .faults import Fault
from .market import Held, Lot, Market
from .names import nearest
from .table import Bidder, Package, Table


def trade(units: dict[str, int]) -> str:
    """The units of a package in words, such as `+2 north, -1 south`."""
    return ", ".join(f"{amount:+d} {good}" for good, amount in units.items())


def faults_of_round(table: Table, market: Market) -> list[Fault]:
    """What keeps a table from being a round of bids on a market."""
    faults = []
    for good in table.goods:
        if good.name not in market.goods:
            near = nearest(good.name, market.goods)
            faults.append(Fault(1, "", f"the market has no good `{good.name}`{near}"))
    for bidder in table.bidders:
        held = market.bidders.get(bidder.name)
        if held is None:
            near = nearest(bidder.name, list(market.bidders))
            words = f"the market has no bidder `{bidder.name}`{near}"
            faults.append(Fault(bidder.line, "", words))
        else:
            faults += faults_of_bidder(bidder, held)
    return faults


def faults_of_bidder(bidder: Bidder, held: Held) -> list[Fault]:
    """What keeps the lines of a bidder from being a bid on its packages."""
    at = bidder.line
    if bidder.own is not None and bidder.own != {good: n for good, n in held.own.items() if n}:
        words = f"{bidder.name} owns something else in the market, and that can't change"
        return [Fault(at, "", words)]
    if not bidder.packages:
        return []
    if held.lots is None:
        words = f"{bidder.name} has a tree in the market: examples/bids.jq makes its bid"
        return [Fault(at, "", words)]
    if bidder.form not in held.forms:
        words = f"the packages of {bidder.name} are `{held.forms[0]}` in the market"
        return [Fault(at, "", words)]
    return unmatched(bidder, held.lots)


def unmatched(bidder: Bidder, lots: list[Lot]) -> list[Fault]:
    """The packages that only the table has, or only the market."""
    left, faults = list(lots), []
    for package in bidder.packages:
        lot = next((lot for lot in left if lot.units == package.units), None)
        if lot:
            left.remove(lot)
        else:
            more = " once more" * any(lot.units == package.units for lot in lots)
            words = f"{bidder.name} has no package {trade(package.units)}{more} in the market"
            faults.append(Fault(package.line, "", words))
    for lot in left:
        words = f"the package {trade(lot.units)} of {bidder.name} has no line"
        faults.append(Fault(bidder.line, "", f"{words}: its values are due too"))
    return faults


def notes_of_round(table: Table, market: Market) -> list[str]:
    """What to look at in a table that matches: alike packages, and looser values than at first."""
    return [
        note
        for bidder in table.bidders
        if bidder.packages
        for note in notes_of_bidder(bidder, market.bidders[bidder.name].lots or [])
    ]


def notes_of_bidder(bidder: Bidder, lots: list[Lot]) -> list[str]:
    """The same of one bidder; a package is looked at beside the first one of its units.

    Of a line `each` alike lots have the same values, and one that is looser stands for all.
    """
    notes, turns = [], list(lots)
    lines = [(trade(units), line) for line, units, _, _ in bidder.packages]
    alike = {words for words, line in lines if any(words == it and line != at for it, at in lines)}
    if alike:
        several = "; ".join(sorted(alike))
        notes.append(f"{bidder.name} has alike packages ({several}): they go by the order of lines")
    looser: set[int] = set()
    for package in bidder.packages:
        lot = next(lot for lot in turns if lot.units == package.units)
        turns.remove(lot)
        if is_looser(package, lot) and package.line not in looser:
            looser.add(package.line)
            notes.append(
                f"line {package.line}: {package.lo} to {package.hi} isn't within the {lot.lo} to "
                f"{lot.hi} of the market: the bid will be refused by verdict 40"
            )
    return notes


def is_looser(package: Package, lot: Lot) -> bool:
    """Whether a package's values aren't within those of the market."""
    return package.lo < lot.lo or package.hi > lot.hi
