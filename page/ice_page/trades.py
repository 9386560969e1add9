"""Who trades what as a table of bidders and goods, and what each pays as a list, with totals."""
from __future__ import annotations

from fractions import Fraction

from . import numbers, words
from .markup import (
    amounts,
    box,
    cell,
    column_head,
    drawing,
    exact,
    key,
    label,
    line,
    row,
    row_head,
    table,
    tag,
    text,
    to_bidder,
)
from .rival import fits
from .sellers import sellers_part
from .view import View

NARROW_NAMES = 4
MANY_GOODS = 16
MANY_IDLE = 6
BAR = 120


def trades_part(view: View) -> str:
    """The tables; a page for one bidder says all of this in words."""
    if view.alone:
        return ""
    unlisted = idle(view)
    listed = [number for number in view.bidders if number not in unlisted]
    names = ", ".join(to_bidder(each, view.journal.bidders[each].name) for each in unlisted)
    others = f"{len(unlisted)} more own nothing and trade nothing: {names}" if names else ""
    return (
        (Payments(view, listed).whole() if view.journal.payments else short_list(view, listed))
        + Matrix(view, listed).whole()
        + sellers_part(view)
        + key(others)
    )


def idle(view: View) -> list[int]:
    """Bidders whose rows are empty, where they are many: they own, trade and pay nothing."""

    def is_idle(number: int) -> bool:
        has = any(view.units[number]) or any(view.journal.bidders[number].owned)
        payment = view.journal.payments[number] if view.journal.payments else None
        pays = payment and (payment.vickrey or payment.discount or payment.payment)
        return not (has or pays or view.worths[number])

    found = [number for number in view.bidders if is_idle(number)]
    return found if len(found) > MANY_IDLE else []


def rest(view: View) -> list[int]:
    """What is sold of each good and not bought."""
    goods = range(len(view.journal.goods))
    return [-sum(units[good] for units in view.units) for good in goods]


def doesnt_add_up(view: View) -> bool:
    """Whether sets and sums are at odds with what the journal states."""
    journal, left = view.journal, rest(view)
    paid = sum((each.payment for each in journal.payments), Fraction(0))
    odds = (
        min(left) < 0,
        any(good.exact and count for good, count in zip(journal.goods, left)),
        sum(view.worths) != view.total,
        bool(journal.payments) and paid != journal.surplus,
        not all(map(fits, journal.settlements)),
    )
    return any(odds)


def named(view: View, number: int, more: str = "") -> str:
    """The head of a bidder's row; narrow screens have its trade in words there, and more."""
    bidder, units = view.journal.bidders[number], view.units[number]
    trade = text(words.trade(units, view.journal.goods)) + more
    below = tag("div", trade, class_="narrow soft")
    return row_head(to_bidder(number, bidder.name) + below, "name")


def look(view: View, number: int) -> str | None:
    """The class of a bidder's row."""
    return None if any(view.units[number]) else "idle"


def short_list(view: View, listed: list[int]) -> str:
    """Bidders with their trades and values, for narrow screens."""
    head = row(column_head("", "name"), column_head("value", "right"))
    rows = [
        row(
            named(view, number),
            cell(numbers.whole(view.worths[number]), "right"),
            class_=look(view, number),
        )
        for number in listed
    ]
    foot = row(row_head("all", "name"), cell(numbers.whole(sum(view.worths)), "right"))
    heading = tag("h2", "Who trades what", class_="narrow")
    return heading + table("Each bidder’s trade", head, rows, foot, shown="narrow")


class Payments:
    """What each pays, the greatest amount first, and why."""

    def __init__(self, view: View, listed: list[int]) -> None:
        self.view, self.cut = view, view.journal.cut
        self.payments = view.journal.payments
        self.listed = sorted(listed, key=lambda number: -self.payments[number].payment)
        most = max([Fraction(1), self.cut, *(Fraction(each.vickrey) for each in self.payments)])
        self.scale = BAR / most

    def whole(self) -> str:
        """The list, its sums and its legend."""
        head = row(
            column_head("", "name"),
            *(column_head(name, "right wider") for name in ("worth", "adds", "−\u00a0keeps")),
            column_head("=\u00a0pays", "right"),
            column_head(f"cut at {exact(self.cut)}", "bars wider"),
        )
        rows = [self.bidder(number) for number in self.listed]
        caption = "What each pays"
        listed = table(caption, head, rows, self.sums(), "paid")
        return tag("h2", caption) + listed + self.legend()

    def bidder(self, number: int) -> str:
        """The row of a bidder."""
        payment, worth = self.payments[number], numbers.whole(self.view.worths[number])
        adds, keeps = numbers.whole(payment.vickrey), exact(payment.discount)
        return row(
            named(self.view, number, f"; worth {worth}, adds {adds}, keeps {keeps}"),
            cell(worth, "right wider"),
            cell(numbers.unless_zero(payment.vickrey), "right wider"),
            cell(amounts(payment.discount) if payment.discount else "", "right wider"),
            cell(amounts(payment.payment), "right strong"),
            cell(self.bar(payment.vickrey), "bars wider"),
            class_=look(self.view, number),
        )

    def bar(self, vickrey: int) -> str:
        """What a bidder adds as a bar, of which the part past the cut is what it keeps."""
        cut = min(self.cut, Fraction(vickrey)) * self.scale
        body = box(0, 6, cut, 9, "pale") + box(cut, 6, vickrey * self.scale - cut, 9, "ink")
        at = self.cut * self.scale
        body += line(at, 0, at, 21, "cut") if self.cut else ""
        if vickrey:
            end = max(Fraction(vickrey), self.cut) * self.scale
            body += label(end + 5, 14.5, numbers.whole(vickrey), "soft")
        width = BAR + 12 + 7 * max(len(numbers.whole(each.vickrey)) for each in self.payments)
        return drawing(width, 21, body, f"adds {numbers.whole(vickrey)}")

    def sums(self) -> str:
        """What is worth, kept, paid and received in all."""
        paid = sum((max(each.payment, Fraction(0)) for each in self.payments), Fraction(0))
        received = sum((max(-each.payment, Fraction(0)) for each in self.payments), Fraction(0))
        kept = sum((each.discount for each in self.payments), Fraction(0))
        worth = numbers.whole(sum(self.view.worths))
        sums = (
            ("all: the surplus", worth, amounts(kept), paid - received),
            ("paid", "", "", paid),
            ("received", "", "", received),
        )
        return "".join(
            row(
                row_head(name, "name"),
                cell(first, "right wider"),
                cell("", "wider"),
                cell(third, "right wider"),
                cell(amounts(amount), "right strong"),
                cell("", "wider"),
            )
            for name, first, third, amount in sums
        )

    def legend(self) -> str:
        """What the columns mean."""
        unit = f", in{self.view.with_unit}" if self.view.unit else ""
        trading = [number for number, units in enumerate(self.view.units) if any(units)]
        return key(
            f"worth: the set’s lower values{unit}",
            "adds: what the total would lack without it (its Vickrey discount)",
            "keeps: what it adds less the cut",
            "who pays a negative amount receives it",
            self.without_discount(trading),
        )

    def without_discount(self, trading: list[int]) -> str:
        """How many of those that trade have a discount of 0, in words; nothing where none has."""
        none = sum(not self.payments[number].discount for number in trading)
        keep, whole = "keep", "they pay the whole lower value of their sets"
        if none == 1:
            keep, whole = "keeps", "it pays the whole lower value of its set"
        says = f"{none} of the {len(trading)} that trade {keep} nothing (a discount of 0): {whole}"
        return says if none else ""


class Matrix:
    """The table of bidders and goods, for screens that are wide enough."""

    def __init__(self, view: View, listed: list[int]) -> None:
        self.view, self.journal, self.listed = view, view.journal, listed
        self.is_dense = len(self.journal.goods) > MANY_GOODS

    def whole(self) -> str:
        """The table and its legend."""
        names = max(len(good.name) for good in self.journal.goods)
        style = "matrix" + " dense" * self.is_dense + " flat" * (names < NARROW_NAMES)
        heads = [
            column_head(tag("span", text(good.name) + " =" * good.exact), "turned")
            for good in self.journal.goods
        ]
        head = row(column_head("", "name"), *heads, column_head("value", "right"))
        rows = map(self.bidder, self.listed)
        foot = self.traded() + self.left_over()
        legend = tag("div", self.legend(), class_="wider")
        caption = "Who trades what"
        drawn = table(caption, head, rows, foot, style, shown="wider")
        return tag("h2", caption, class_="wider") + drawn + legend

    def bidder(self, number: int) -> str:
        """The row of a bidder."""
        bidder, units = self.journal.bidders[number], self.view.units[number]
        cells = [row_head(to_bidder(number, bidder.name), "name")]
        for count, owned in zip(units, bidder.owned):
            side = "buy" if count > 0 else "sell" if count < 0 else "soft"
            cells.append(cell(numbers.signed(count) or "·" * (owned > 0), f"unit {side}"))
        cells.append(cell(numbers.whole(self.view.worths[number]), "right"))
        return row(*cells, class_=look(self.view, number))

    def traded(self) -> str:
        """The sums of the columns."""
        cells = [row_head("traded", "name")]
        for good in range(len(self.journal.goods)):
            bought = sum(max(units[good], 0) for units in self.view.units)
            cells.append(cell(numbers.unless_zero(bought), "unit"))
        return row(*cells, cell(numbers.whole(sum(self.view.worths)), "right"))

    def left_over(self) -> str:
        """What is left over, where anything is."""
        left = rest(self.view)
        cells = (cell(numbers.unless_zero(count), "unit") for count in left)
        return row(row_head("left over", "name"), *cells, cell("")) if any(left) else ""

    def legend(self) -> str:
        """What the signs mean."""
        unit = f", in{self.view.with_unit}" if self.view.unit else ""
        return key(
            '<b class="buy">+</b> buys',
            '<b class="sell">−</b> sells',
            "· owns and keeps",
            f"value: the set’s lower values{unit}",
            "= no unit of this good may be left over"
            if any(good.exact for good in self.journal.goods)
            else "",
        )
