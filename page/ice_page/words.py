"""Sets, values and rounds in words, as plain text."""
from __future__ import annotations

from fractions import Fraction
from itertools import groupby
from typing import Iterable, Sequence

from . import numbers
from .journal import Good, Journal


WANTS, PAYS = "wants at least ", "pays up to "


def trade(units: Sequence[int], goods: Sequence[Good]) -> str:
    """What a set buys and sells, such as `buy 2 ham-mon + ver-tue; sell crane`."""
    sides = []
    for verb, sign in (("buy", 1), ("sell", -1)):
        named = [
            f"{numbers.whole(count * sign)} {good.name}" if count * sign > 1 else good.name
            for count, good in zip(units, goods)
            if count * sign > 0
        ]
        sides += [f'{verb} {" + ".join(named)}'] if named else []
    return "; ".join(sides) or "no trade"


def places(bits: str) -> str:
    """The nodes of a set, such as `nodes 0–2, 5`."""
    inside = [node for node, bit in enumerate(bits) if bit == "1"]
    runs = []
    for _, run in groupby(enumerate(inside), lambda pair: pair[1] - pair[0]):
        first, *more = (node for _, node in run)
        runs.append(f"{first}–{more[-1]}" if more else str(first))
    if not runs:
        return "no nodes"
    return f'node{"s" * (len(inside) > 1)} {", ".join(runs)}'


def interval(low: int, high: int) -> str:
    """An interval of values."""
    return numbers.whole(low) if low == high else f"{numbers.whole(low)}..{numbers.whole(high)}"


def stake(side: str, low: int, high: int) -> str:
    """An interval of the value of a sale or a purchase by itself, as what its bidder will do.

    Such as `wants at least 500` of a sale at -500, and `pays up to 500` of a purchase at 500.
    """
    take, rid = ("", " to be rid of it") if side == "sell" else (" to take it", "")
    if low >= 0 and (high or side == "buy"):
        return f"{PAYS}{interval(low, high)}{rid}"
    if high <= 0:
        return f"{WANTS}{interval(-high, -low)}{take}"
    return f"{WANTS}{numbers.whole(-low)}{take}, or {PAYS}{numbers.whole(high)}{rid}"


def amount(number: Fraction | int) -> str:
    """An amount, with its exact value where that is a fraction."""
    fraction = numbers.ratio(number)
    return numbers.decimal(number) + (f" ({fraction})" if fraction else "")


def listed(words: Iterable[str]) -> str:
    """Words with commas, and `and` before the last one."""
    *most, last = words
    return f'{", ".join(most)} and {last}' if most else last


def awaited(journal: Journal) -> str:
    """For which round a session waits for bids; nothing where it doesn't."""
    if journal.end.word not in ("open", "refused", "unread"):
        return ""
    return f"round {journal.last.number + 1}: bids are awaited"
