"""The files that a table makes: flat bids, an exchange, and rounds of bids."""
from __future__ import annotations

from typing import Any, Iterator

from . import jsontext
from .faults import BadFile
from .market import Held, Lot, Market
from .table import Bidder, Package, Table

Json = dict[str, Any]


def goods_of(table: Table) -> list[Any]:
    """The goods as a file has them."""
    return [{"exact": good.name} if good.exact else good.name for good in table.goods]


def flat(table: Table, settings: Json) -> Json:
    """The file of flat bids, which `ice xor` makes an exchange of."""
    bidders = [
        {
            "name": bidder.name,
            "own": bidder.own or {},
            bidder.form: [
                {"units": package.units, "lo": package.lo, "hi": package.hi}
                for package in bidder.packages
            ],
        }
        for bidder in table.bidders
    ]
    return {"settings": settings, "goods": goods_of(table), "bidders": bidders}


def exchange(table: Table, settings: Json, others: list[Json]) -> Json:
    """The exchange of a table, in the trees that `ice xor` makes, with other bidders behind."""
    bidders = [
        {"name": bidder.name, "own": bidder.own or {}, "tree": tree_of(bidder)}
        for bidder in table.bidders
    ]
    return {"settings": settings, "goods": goods_of(table), "bidders": bidders + others}


def tree_of(bidder: Bidder) -> Json:
    """The tree of a bidder with packages: at most one of them, or any."""
    most = 1 if bidder.form == "xor" else len(bidder.packages)
    return {"choose": [0, most], "lo": 0, "hi": 0, "of": list(map(choice_of, bidder.packages))}


def choice_of(package: Package) -> Json:
    """The choice of all leaves of a package, which has its values."""
    leaves = [
        {"buy" if units > 0 else "sell": good, "units": abs(units), "lo": 0, "hi": 0}
        for good, units in package.units.items()
    ]
    count = len(leaves)
    return {"choose": [count, count], "lo": package.lo, "hi": package.hi, "of": leaves}


def read_others(file: str, table: Table) -> list[Json]:
    """The bidders with trees in a file: an array of them, or an exchange that has them."""
    value = jsontext.read(file)
    found = value.get("bidders") if isinstance(value, dict) else value
    if not isinstance(found, list):
        raise BadFile(f"{file}: an array of bidders with trees is due, or an exchange")
    names = {bidder.name for bidder in table.bidders}
    for number, bidder in enumerate(found):
        place = f"{file}: bidder {number}"
        name = jsontext.members(bidder, ("name", "own", "tree"), place)["name"]
        if not isinstance(name, str):
            raise BadFile(f"{place}: `name` is {jsontext.kind(name)} where a text is due")
        if name in names:
            raise BadFile(f"{place}: `{name}` stands in the table or above already")
        names.add(name)
        if any(isinstance(part, jsontext.NotWhole) for part in parts(bidder)):
            raise BadFile(f"{place}: `{name}` has a number that isn't whole")
    return found


def parts(value: Any) -> Iterator[Any]:
    """A value of JSON with all that stands in it."""
    yield value
    inner = value.values() if isinstance(value, dict) else value if isinstance(value, list) else ()
    for part in inner:
        yield from parts(part)


def bid(name: str, packages: list[Package] | list[Lot]) -> Json:
    """A bid on the tree of packages: the root and the leaves have 0, the package its value."""
    ends: dict[str, list[int]] = {"lo": [0], "hi": [0]}
    for package in packages:
        zeros = [0] * len(package.units)
        ends["lo"] += [package.lo, *zeros]
        ends["hi"] += [package.hi, *zeros]
    return {"bidder": name, **ends}


def round_in_order(table: Table) -> Json:
    """The round file of a table whose packages stand in the order of the market."""
    bids = [bid(each.name, each.packages) for each in table.bidders if each.packages]
    return {"bids": bids}


def in_order_of(bidder: Bidder, held: Held) -> list[Package]:
    """A bidder's packages in the order of the market; of alike ones the first line is the first."""
    left = list(bidder.packages)
    found = []
    for lot in held.lots or []:
        package = next(package for package in left if package.units == lot.units)
        left.remove(package)
        found.append(package)
    return found


def round_of(table: Table, market: Market) -> Json:
    """The round file of a table that was matched with its market."""
    bids = [
        bid(bidder.name, in_order_of(bidder, market.bidders[bidder.name]))
        for bidder in table.bidders
        if bidder.packages
    ]
    return {"bids": bids}
