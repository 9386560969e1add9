"""Whether a bid is one that the program takes into a round."""
from __future__ import annotations

from typing import Any, NamedTuple

from .cells import is_lawful
from .faults import shown
from .jsontext import NotWhole, kind
from .market import Market
from .names import nearest

MEMBERS = {"bidder", "lo", "hi"}
MOST_VALUES, MOST_VALUE = 200, 10**9


class Refusal(NamedTuple):
    """Why a bid is put aside.

    `number` is that of the fault by which the program would refuse the round, with its place in
    the bid, or of the verdict, 45 or 46, that would come in any case, with no place.
    """

    number: int
    place: str
    words: str

    def __str__(self) -> str:
        if self.place:
            return f"[{self.number}] at {self.place}: {self.words}"
        return f"verdict {self.number}: {self.words}"


def refusal_of(bid: Any, market: Market) -> Refusal | None:
    """The first reason for which a bid is put aside, in the program's order; None for none."""
    return shape(bid) or values(bid, "lo") or values(bid, "hi") or verdict(bid, market)


def shape(bid: Any) -> Refusal | None:
    """What is wrong with a bid's members, or its bidder as a name."""
    if not isinstance(bid, dict):
        return Refusal(2, "-", f"{kind(bid)} where a bid is due")
    if bid.keys() != MEMBERS:
        missing, other = sorted(MEMBERS - bid.keys()), sorted(bid.keys() - MEMBERS)
        why = f"`{missing[0]}` is missing" if missing else f"{shown(other[0])} doesn't belong here"
        return Refusal(2, "-", f"a bid has just the members bidder, lo and hi: {why}")
    name = bid["bidder"]
    if not isinstance(name, str):
        return Refusal(2, "bidder", f"{kind(name)} where a name is due")
    if not is_lawful(name):
        words = "is no lawful name: 1 to 32 of A-Z a-z 0-9 _ - ."
        return Refusal(13, "bidder", f"{shown(name)} {words}")
    return None


def values(bid: dict[str, Any], end: str) -> Refusal | None:
    """What is wrong with the lower or the upper values."""
    given = bid[end]
    if not isinstance(given, list):
        return Refusal(2, end, f"{kind(given)} where an array of values is due")
    if len(given) > MOST_VALUES:
        return Refusal(4, end, f"{len(given)} values: a tree has at most {MOST_VALUES} nodes")
    found = (value_fault(value, f"{end}.{n}") for n, value in enumerate(given))
    return next((fault for fault in found if fault), None)


def value_fault(value: Any, place: str) -> Refusal | None:
    """What is wrong with one value."""
    if isinstance(value, NotWhole):
        return Refusal(3, place, f"{shown(value.text)} is no whole number: digits alone, as `10`")
    if not isinstance(value, int) or isinstance(value, bool):
        return Refusal(2, place, f"{kind(value)} where a number is due")
    if abs(value) > MOST_VALUE:
        return Refusal(4, place, f"{value} is beyond {MOST_VALUE:,} in size")
    return None


def verdict(bid: dict[str, Any], market: Market) -> Refusal | None:
    """What would be judged of it whatever the session: an unknown name, a wrong count."""
    name, nodes = bid["bidder"], {end: len(bid[end]) for end in ("lo", "hi")}
    held = market.bidders.get(name)
    if held is None:
        near = nearest(name, list(market.bidders))
        return Refusal(45, "", f"the market has no bidder `{name}`{near}")
    for end, count in nodes.items():
        if count != held.nodes:
            words = f"`{end}` has {count} values for the {held.nodes} nodes of {name}"
            return Refusal(46, "", words)
    return None
