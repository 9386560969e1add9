"""A market that was written before, as an exchange or flat bids: goods, bidders, packages."""
from __future__ import annotations

from dataclasses import dataclass
from typing import Any, Iterator

from . import jsontext
from .faults import BadFile
from .jsontext import kind, members, number

MOST_NODE, MOST_UNITS, MOST_VALUE = 199, 1000, 10**9
LO_HI = ("lo", "hi")


@dataclass
class Node:
    """A node of a tree with its values; a choice has children, a leaf a good and its units."""

    lo: int
    hi: int
    choose: tuple[int, int] = (0, 0)
    children: tuple["Node", ...] = ()
    good: str = ""
    units: int = 0

    def all(self) -> Iterator["Node"]:
        """The nodes of the tree, from the top down and from left to right."""
        yield self
        for child in self.children:
            yield from child.all()


@dataclass
class Lot:
    """A package of a market: its units by good, and its first values."""

    units: dict[str, int]
    lo: int
    hi: int


@dataclass
class Held:
    """A bidder of a market: what it owns, the number of its nodes, and its packages.

    `lots` is None where its bid is a tree of another form than packages have.
    """

    own: dict[str, int]
    nodes: int
    forms: tuple[str, ...] = ()
    lots: list[Lot] | None = None


@dataclass
class Market:
    """The goods of a market, and its bidders by name."""

    goods: list[str]
    bidders: dict[str, Held]


def read_market(file: str) -> Market:
    """The market in a file of an exchange or of flat bids; BadFile where it is neither."""
    value = members(jsontext.read(file), ("settings", "goods", "bidders"), file)
    goods = [good_name(good, f"{file}: goods.{n}") for n, good in array(value, "goods", file)]
    held = {}
    for n, bidder in array(value, "bidders", file):
        place = f"{file}: bidders.{n}"
        form = next((word for word in ("tree", "xor", "or") if has(bidder, word)), "tree")
        members(bidder, ("name", "own", form), place)
        name, own = bidder["name"], bidder["own"]
        if not isinstance(name, str) or not isinstance(own, dict):
            raise BadFile(f"{place}: `name` is a text and `own` an object")
        for good, amount in own.items():
            number(amount, 0, 10**6, f"{place}.own.{good}")
        read = read_tree if form == "tree" else read_flat
        held[name] = read(bidder[form], own, form, f"{place}.{form}")
    return Market(goods, held)


def has(value: Any, member: str) -> bool:
    """Whether a value is an object with this member."""
    return isinstance(value, dict) and member in value


def array(value: dict[str, Any], name: str, place: str) -> Iterator[tuple[int, Any]]:
    """The numbered elements of a member that is an array."""
    if not isinstance(value[name], list):
        raise BadFile(f"{place}: `{name}` is {kind(value[name])} where an array is due")
    return enumerate(value[name])


def good_name(value: Any, place: str) -> str:
    """The name of a good, which an exact one has as its member `exact`."""
    name = members(value, ("exact",), place)["exact"] if isinstance(value, dict) else value
    if not isinstance(name, str):
        raise BadFile(f"{place}: {kind(name)} where a name is due")
    return name


def read_flat(value: Any, own: dict[str, int], form: str, place: str) -> Held:
    """A bidder with packages in a file of flat bids."""
    lots = []
    for n, package in array({form: value}, form, place):
        at = f"{place}.{n}"
        members(package, ("lo", "hi", "units"), at)
        values = [number(package[end], -MOST_VALUE, MOST_VALUE, f"{at}.{end}") for end in LO_HI]
        if not isinstance(package["units"], dict):
            raise BadFile(f"{at}: `units` is {kind(package['units'])} where an object is due")
        units = package["units"].items()
        amounts = {name: number(n, -MOST_UNITS, MOST_UNITS, at) for name, n in units}
        lots.append(Lot(amounts, *values))
    return Held(own, 1 + sum(1 + len(lot.units) for lot in lots), (form,), lots)


def read_node(value: Any, place: str) -> Node:
    """A node with all below it."""
    word = next((word for word in ("choose", "buy", "sell") if has(value, word)), "choose")
    members(value, (word, "of" if word == "choose" else "units", *LO_HI), place)
    lo, hi = (number(value[end], -MOST_VALUE, MOST_VALUE, f"{place}.{end}") for end in LO_HI)
    if word != "choose":
        units, good = number(value["units"], 1, MOST_UNITS, f"{place}.units"), value[word]
        if not isinstance(good, str):
            raise BadFile(f"{place}.{word}: {kind(good)} where a name is due")
        return Node(lo, hi, good=good, units=units if word == "buy" else -units)
    ends = value["choose"]
    if not isinstance(ends, list) or len(ends) != 2:
        raise BadFile(f"{place}.choose: an array of two numbers is due")
    least, most = (number(end, 0, MOST_NODE, f"{place}.choose") for end in ends)
    children = tuple(read_node(of, f"{place}.of.{n}") for n, of in array(value, "of", place))
    return Node(lo, hi, (least, most), children)


def read_tree(value: Any, own: dict[str, int], _form: str, place: str) -> Held:
    """A bidder with a tree, and its packages where the tree is one that packages have."""
    root = read_node(value, place)
    lots = [lot_of(child) for child in root.children]
    known = [lot for lot in lots if lot is not None]
    nodes = sum(1 for _ in root.all())
    forms = tuple(
        form for form, most in (("xor", 1), ("or", len(lots))) if root.choose == (0, most)
    )
    is_flat = bool(forms and lots) and len(known) == len(lots) and not (root.lo or root.hi)
    return Held(own, nodes, forms, known if is_flat else None)


def lot_of(node: Node) -> Lot | None:
    """The package that a choice of all its leaves is; None for another node."""
    leaves = node.children
    is_package = node.choose == (len(leaves), len(leaves)) and leaves
    if not is_package or any(leaf.children or leaf.lo or leaf.hi for leaf in leaves):
        return None
    units = {leaf.good: leaf.units for leaf in leaves}
    return Lot(units, node.lo, node.hi) if len(units) == len(leaves) and "" not in units else None
