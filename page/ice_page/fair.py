"""Fair prices beside the payments: what each bidder's set costs at them, and what they say."""
from __future__ import annotations

from fractions import Fraction

from .fair_file import FairPrices
from .markup import amounts, cell, column_head, exact, key, row, row_head, table, tag, text
from .view import View


def cost(view: View, fair: FairPrices, number: int) -> Fraction:
    """What a bidder's set costs at the prices."""
    pairs = zip(view.units[number], fair.prices)
    return sum((count * price for count, price in pairs), Fraction(0))


def gap(view: View, fair: FairPrices, number: int) -> Fraction:
    """What a bidder pays above what its set costs."""
    return view.journal.payments[number].payment - cost(view, fair, number)


def is_farthest(view: View, fair: FairPrices) -> bool:
    """Whether the greatest gap is the distance that the file states."""
    every = range(len(view.journal.bidders))
    return max(abs(gap(view, fair, number)) for number in every) == fair.distance


def bidder_row(view: View, fair: FairPrices, number: int) -> str:
    """What a bidder pays, beside what its set costs."""
    numbers = (
        view.journal.payments[number].payment,
        cost(view, fair, number),
        gap(view, fair, number),
    )
    name = row_head(text(view.journal.bidders[number].name), "name")
    return row(name, *(cell(amounts(each), "right") for each in numbers))


def bidders_table(view: View, fair: FairPrices) -> str:
    """The bidders' payments and gaps, the greatest payment first."""
    heads = (column_head(name, "right") for name in ("pays", "− its set costs", "= gap"))
    payments = view.journal.payments
    listed = sorted(view.bidders, key=lambda number: -payments[number].payment)
    rows = [bidder_row(view, fair, number) for number in listed]
    return table("Payments beside fair prices", row(column_head("", "name"), *heads), rows)


def prices_table(view: View, fair: FairPrices) -> str:
    """The price of each good."""
    head = row(column_head("good", "name"), column_head("fair price", "right"))
    rows = [
        row(row_head(text(good.name), "name"), cell(amounts(price), "right"))
        for good, price in zip(view.journal.goods, fair.prices)
    ]
    return table("Fair prices", head, rows)


def says(view: View, fair: FairPrices) -> str:
    """What the distance says, in a sentence."""
    if not fair.distance:
        costs = "your set costs just what you pay"
        costs = costs if view.alone else "each bidder’s set costs just what it pays"
        return f"At these prices, which are the same for all, {costs}."
    return (
        "No accurate prices that are the same for all explain every payment: at these, which come "
        f"nearest, what some bidder pays is {exact(fair.distance)}{view.with_unit} from what its "
        "set costs, and no bidder’s is further."
    )


def accuracy(view: View, fair: FairPrices) -> str:
    """How accurate the prices are."""
    if not fair.violation:
        return "accurate: nobody would gain by another set at them, by lower values"
    most = f"{exact(fair.violation)}{view.with_unit}"
    return (
        f"accurate: a bidder would gain at most {most} by another set at them, by lower values, "
        "and no prices leave less"
    )


def fair_section(view: View) -> str:
    """The section, where a file of fair prices was named."""
    fair = view.fair
    if fair is None:
        return ""
    odds = "The greatest gap isn’t the distance that the file of the prices states."
    return (
        tag("h2", "Fair prices")
        + tag("p", says(view, fair))
        + tag("div", bidders_table(view, fair) + prices_table(view, fair), class_="pair")
        + key(
            f"distance, the greatest gap: {exact(fair.distance)}{view.with_unit}",
            accuracy(view, fair),
            "nobody pays these prices: they are there to compare payments with",
            "" if is_farthest(view, fair) else tag("b", odds, class_="bad"),
        )
    )
