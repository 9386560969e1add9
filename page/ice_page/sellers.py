"""What each seller gets for what it sold, next to what it asked at least, in words."""
from __future__ import annotations

from fractions import Fraction

from . import numbers, words
from .markup import exact, key, tag, text
from .view import View


def sellers_part(view: View) -> str:
    """A sentence or two for each that sells and buys nothing, once a session has closed."""
    if not view.journal.payments:
        return ""
    selling = [number for number in view.bidders if min(view.units[number]) < 0]
    swaps = [number for number in selling if max(view.units[number]) > 0]
    lines = [tag("p", seller(view, number)) for number in selling if number not in swaps]
    if not lines:
        return ""
    names = ", ".join(text(view.journal.bidders[number].name) for number in swaps)
    return (
        tag("h3", "What sellers get, next to what they asked")
        + tag("div", "".join(lines), class_="advice sellers")
        + key(
            f"reserve: what a seller asked at least, by its lower values{in_unit(view)}",
            f"with one price for what they sell and buy: {names}" if names else "",
        )
    )


def in_unit(view: View) -> str:
    """The unit of the amounts, as markup."""
    return f", in{view.with_unit}" if view.unit else ""


def seller(view: View, number: int) -> str:
    """What a seller gets or pays for what it sold, its reserve, and what the prices say."""
    name = tag("b", text(view.journal.bidders[number].name))
    sold = text(words.trade(view.units[number], view.journal.goods).removeprefix("sell "))
    payment, worth = view.journal.payments[number].payment, view.worths[number]
    asked = f"asked at least {numbers.whole(-worth)}"
    if worth > 0:
        asked = f"would have paid up to {numbers.whole(worth)} to be rid of it"
    price = f"receives {exact(-payment)} for {sold}"
    if payment > 0:
        price = f"pays {exact(payment)} to be rid of {sold}"
    stands = against(worth - payment, worth)
    return f"{name} {price}; it {asked}, so that is {stands}.{priced(view, number)}"


def against(gap: Fraction, worth: int) -> str:
    """How a price stands to the reserve, which is a payment where the set's value is above 0."""
    if not gap:
        return "just its reserve"
    better, worse = ("better", "worse") if worth > 0 else ("above", "below")
    than = " than" if worth > 0 else ""
    return f"{exact(abs(gap))} {better if gap > 0 else worse}{than} its reserve"


def priced(view: View, number: int) -> str:
    """What the units come to at the prices of the last round, where there was one."""
    offered = [each for each in view.journal.settlements if each.prices]
    if not offered:
        return ""
    prices = offered[-1].prices or []
    total = -sum(count * price for count, price in zip(view.units[number], prices))
    return f" At the prices of round {offered[-1].number + 1} that comes to {exact(total)}."
