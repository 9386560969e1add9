"""What it changes for each other bidder that one of them is left out, in lines of plain text."""
from __future__ import annotations

from fractions import Fraction
from typing import Iterator, NamedTuple

from ice_page import numbers, words
from ice_page.checker import total
from ice_page.journal import Journal


class Share(NamedTuple):
    """What one bidder trades, as words, and what it pays."""

    trade: str
    payment: Fraction


class Pair(NamedTuple):
    """A bidder's share before, and without the one that is left out."""

    name: str
    before: Share
    now: Share

    @property
    def change(self) -> Fraction:
        """By what part of the greater payment the two differ, whatever their signs."""
        one, other = self.before.payment, self.now.payment
        return abs(one - other) / max(abs(one), abs(other)) if one != other else Fraction(0)


def shares(journal: Journal) -> dict[str, Share]:
    """The share of each bidder of a session that closed."""
    goods = journal.goods
    return {
        bidder.name: Share(words.trade(bidder.units(bits, len(goods)), goods), paid.payment)
        for bidder, bits, paid in zip(journal.bidders, journal.shown.sets, journal.payments)
    }


def pairs(before: Journal, now: Journal) -> list[Pair]:
    """The two shares of each bidder that is there in both."""
    old, new = shares(before), shares(now)
    return [Pair(name, old[name], new[name]) for name in new]


def told(before: Journal, now: Journal, name: str, much: int) -> Iterator[str]:
    """All lines."""
    found = pairs(before, now)
    yield f"without {name}, by the last bounds of all others:"
    totals = [numbers.whole(total(journal)) for journal in (before, now)]
    yield f"  total value {totals[0]} before, {totals[1]} without"
    yield f"  regret {regret(before)} before, {regret(now)} without"
    yield f"  surplus {words.amount(before.surplus)} before, {words.amount(now.surplus)} without"
    yield from map(line, found)
    yield from warning(found, much)
    yield "nothing is decided by this; whether it counts is for the rules that you announced"


def regret(journal: Journal) -> str:
    """The regret of a session that closed."""
    return numbers.whole(journal.last.regret or 0)


def line(pair: Pair) -> str:
    """What changes for a bidder."""
    before, now = pair.before, pair.now
    money = f"{paid(before.payment)} before, {paid(now.payment)} without"
    if before.payment == now.payment:
        money = f"{paid(now.payment)} as before"
    trade = now.trade if now.trade == before.trade else f"{now.trade} (before: {before.trade})"
    return f"  {pair.name}: {money}; {trade}"


def paid(amount: Fraction) -> str:
    """What is paid or received, in words."""
    return f"receives {words.amount(-amount)}" if amount < 0 else f"pays {words.amount(amount)}"


def warning(found: list[Pair], much: int) -> Iterator[str]:
    """A line where payments differ much, with each bidder whose payment does."""
    far = [pair for pair in found if pair.change * 100 > much]
    if not far:
        return
    named = [f"{pair.name} by {numbers.percent(*share(pair))}" for pair in far]
    yield f"warning: payments differ by more than {much} %: {words.listed(named)}"


def share(pair: Pair) -> tuple[int, int]:
    """The change as a part of a whole, for a share in a hundred."""
    return pair.change.numerator, pair.change.denominator
