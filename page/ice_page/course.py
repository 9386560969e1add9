"""How a session went: regret, prices, bids, and the uncertainty that is left."""
from __future__ import annotations

from collections import Counter
from fractions import Fraction

from . import numbers
from .journal import MOST_BIDDERS, Judged, Settlement
from .markup import (
    amounts,
    box,
    cell,
    column_head,
    dot,
    drawing,
    key,
    label,
    line,
    row,
    row_head,
    table,
    tag,
    text,
)
from .small_lines import lines_part
from .view import View

REASONS = {
    "40": (
        "loosened a bound",
        "a lower value fell or an upper one rose, and bounds may only tighten",
    ),
    "41": ("crossed bounds", "a lower value stood above the upper one"),
    "42": (
        "left the best set open",
        "by its bounds it isn’t sure yet which set is best at the prices (first rule)",
    ),
    "43": (
        "tightened too little",
        "what it may lack by its provisional set must fall by {} or vanish, unless another set is "
        "sure to leave more than that (second rule)",
    ),
    "44": ("came again", "a bid of this bidder was accepted in this round before"),
    "45": ("unknown name", "no bidder of the exchange has it"),
    "46": ("wrong count", "the lists don’t have one value for each node"),
}
WIDE = 440
MANY_REFUSALS = 60
FEW_SETTLEMENTS = 10
MANY_GOODS, FEW_PRICES, SHOWN_NARROW = 12, 6, 2


def course_section(view: View) -> str:
    """The section, or nothing where there is nothing to tell."""
    both = [tag("div", part) for part in (regret_table(view), price_tables(view)) if part]
    parts = tag("div", "".join(both), class_="pair") if both else ""
    parts += "" if view.alone else lines_part(view)
    if len(view.journal.settlements) > 1 and not view.alone:
        parts += Rounds(view).whole()
    return tag("h2", "How it went") + parts if parts else ""


# Regret


def regret_table(view: View) -> str:
    """What was sure and what could be missed, settlement by settlement."""
    done = [each for each in view.journal.settlements if each.regret is not None]
    if len(done) < 2:
        return ""
    most = max(sure(each, view) + (each.regret or 0) for each in done) or 1
    heads = (
        ["settlement", "regret"] if view.alone else ["settlement", "sure", "regret", "of the total"]
    )
    head = row(*(column_head(name, "right") for name in heads), column_head(""))
    rows = [regret_row(view, each, Fraction(WIDE, most)) for each in done]
    settings = view.journal.settings
    close = (
        f"closes at a regret of {numbers.whole(settings.close_regret)} or less, or after "
        f'{numbers.plural(settings.rounds, "round")}'
    )
    caption = "What could be missed" if view.alone else "What was sure, and what could be missed"
    return (
        tag("h3", caption)
        + table(caption, head, rows, class_="steps drawn")
        + key(
            "" if view.alone else '<b class="ink">■</b> the best trade was sure of this',
            '<b class="gap">■</b> another could be worth so much more',
            close,
        )
    )


def sure(settlement: Settlement, view: View) -> int:
    """The value that the best trade of a settlement was sure of, where it is shown."""
    final = settlement.group("final")
    return 0 if view.alone or final is None else max(0, final.value or 0)


def regret_row(view: View, settlement: Settlement, scale: Fraction) -> str:
    """The row of a settlement."""
    final, regret = settlement.group("final"), settlement.regret or 0
    start = sure(settlement, view) * scale
    body = box(0, 5, start, 10, "ink") + box(start, 5, regret * scale, 10, "gap")
    value = final.value or 0 if final else 0
    title = f"{numbers.whole(regret)} at most missed"
    cells = [row_head(str(settlement.number), "right")]
    if not view.alone:
        title = f"{numbers.whole(value)} sure, {title}"
        cells.append(cell(numbers.whole(value), "right"))
    cells.append(cell(numbers.whole(regret), "right strong"))
    if not view.alone:
        cells.append(cell(text(numbers.percent(regret, value)), "right soft"))
    return row(*cells, cell(drawing(WIDE, 20, body, title, stretches=True), "bars"))


# Prices


def priced(view: View) -> list[Settlement]:
    """The settlements that have prices."""
    return [each for each in view.journal.settlements if each.prices]


def price_tables(view: View) -> str:
    """The prices of each good at each settlement, with changes marked."""
    settlements = priced(view)
    if not settlements:
        return ""
    caption, count = "Prices of one unit", len(settlements)
    heads = [
        column_head(f"round {each.number + 1}", f"right{older(place, count)}")
        for place, each in enumerate(settlements)
    ]
    head = row(column_head("", "name"), *heads)
    rows = [price_row(view, number) for number in range(len(view.journal.goods))]
    columns = 2 if len(rows) > MANY_GOODS and count <= FEW_PRICES else 1
    height = -(-len(rows) // columns)
    parts = [rows[start : start + height] for start in range(0, len(rows), height)]
    captions = [caption, "Prices of more goods"]
    tables = "".join(table(name, head, part, class_="steps") for name, part in zip(captions, parts))
    unit = f"in{view.with_unit}" if view.unit else ""
    return (
        tag("h3", caption)
        + tables
        + key(
            "the prices with which a round begins",
            "▲ ▼ other than in the round before" if count > 1 else "",
            unit,
            tag("span", "earlier prices stand on a wider screen", class_="narrow")
            if count > SHOWN_NARROW
            else "",
        )
    )


def older(place: int, count: int) -> str:
    """The class of a settlement that narrow screens leave out, behind a space."""
    return " wider" if place < count - SHOWN_NARROW else ""


def price_row(view: View, good: int) -> str:
    """The prices of a good; that of the last round has its exact value too."""
    cells, settlements = [], priced(view)
    before: Fraction | None = None
    for place, each in enumerate(settlements):
        price = each.prices[good] if each.prices else Fraction(0)
        is_new = before is not None and price != before
        sign = ("▲ " if price > (before or 0) else "▼ ") if is_new else ""
        is_last = place == len(settlements) - 1
        body = sign + (amounts(price) if is_last else numbers.decimal(price))
        look = " strong" if is_new else " soft" if before is not None and not is_last else ""
        cells.append(cell(body, f"right{look}{older(place, len(settlements))}"))
        before = price
    return row(row_head(text(view.journal.goods[good].name), "name"), *cells)


# Bids


def rank(bid: Judged) -> tuple[int, str, int]:
    """The order in which bids are named: that of the bidders, with unknown names at the end."""
    return (MOST_BIDDERS if bid.bidder is None else bid.bidder, bid.who, bid.node or 0)


class Rounds:
    """Each bidder's uncertainty at each settlement, its bids between, and why bids were refused."""

    def __init__(self, view: View) -> None:
        self.view, self.journal = view, view.journal
        self.count = len(self.journal.settlements)
        self.step, self.thick = (46, 14) if self.count < FEW_SETTLEMENTS else (30, 8)
        self.width = (self.count - 1) * self.step + self.thick
        self.loose = [
            [sum(high) - sum(low) for low, high in each.bounds] for each in self.journal.settlements
        ]
        self.bids = [each.bids for each in self.journal.settlements]
        self.all_bids: Counter[Judged] = sum(self.bids, Counter())
        self.accepted = sum(n for bid, n in self.all_bids.items() if bid.verdict == "accepted")
        self.refused = self.all_bids.total() - self.accepted

    def whole(self) -> str:
        """The heading, the table and the reasons."""
        caption = "Bids, and how the uncertainty shrank"
        marks = "".join(
            label(number * self.step + Fraction(self.thick, 2), 12, str(number), "soft", "middle")
            for number in range(self.count)
        )
        axis = drawing(self.width + 6, 16, marks, f"settlements 0 to {self.count - 1}")
        head = row(
            column_head("", "name"),
            column_head("opening", "right"),
            column_head(axis, "wider"),
            column_head("now", "right"),
            column_head("left", "right"),
        )
        rows = map(self.bidder, self.view.bidders)
        legend = key(
            tag(
                "span",
                "bars: upper less lower values at each settlement, as a share of the opening",
                class_="wider",
            ),
            f"●&nbsp;{numbers.whole(self.accepted)} accepted",
            f'<b class="bad">×</b>&nbsp;{numbers.whole(self.refused)} refused',
        )
        bars = tag("div", table(caption, head, rows, self.sums()) + legend)
        why = tag("dl", self.reasons(), class_="why") if self.refused else ""
        return tag("h3", caption) + tag("div", bars + why, class_="pair") + self.told()

    def bidder(self, number: int) -> str:
        """The row of a bidder."""
        first, now = self.loose[0][number], self.loose[-1][number]
        body = line(0, 21.5, self.width, 21.5)
        told = []
        for place in range(self.count):
            tall = Fraction(19 * self.loose[place][number], first or 1)
            body += box(place * self.step, 21 - tall, self.thick, tall, "bar")
            good, bad = self.verdicts(place, number)
            body += self.signs(place, good, bad)
            told.append(numbers.percent(self.loose[place][number], first) or "0 %")
            if good or bad:
                told[
                    -1
                ] += f" ({numbers.whole(good)} accepted, {numbers.whole(bad)} refused after it)"
        title = "uncertainty left at each settlement: " + ", ".join(told)
        return row(
            row_head(text(self.journal.bidders[number].name), "name"),
            cell(numbers.whole(first), "right"),
            cell(drawing(self.width, 22, body, title), "wider"),
            cell(numbers.whole(now), "right"),
            cell(text(numbers.percent(now, first)), "right soft"),
        )

    def verdicts(self, place: int, number: int) -> tuple[int, int]:
        """How many bids of a bidder were accepted and refused after a settlement."""
        verdicts = [(bid.verdict, n) for bid, n in self.bids[place].items() if bid.bidder == number]
        good = sum(n for verdict, n in verdicts if verdict == "accepted")
        return good, sum(n for _, n in verdicts) - good

    def signs(self, place: int, good: int, bad: int) -> str:
        """The signs of the bids between two settlements."""
        middle = place * self.step + Fraction(self.thick + self.step, 2)
        body = dot(middle + 7 * bool(bad), 10.5, 3) if good else ""
        times = "×" + numbers.whole(bad) * (bad > 1)
        return body + (label(middle - 5 * bool(good), 14, times, "bad", "middle") if bad else "")

    def sums(self) -> str:
        """The row of all bidders."""
        first, now = sum(self.loose[0]), sum(self.loose[-1])
        return row(
            row_head("all", "name"),
            cell(numbers.whole(first), "right"),
            cell("", "wider"),
            cell(numbers.whole(now), "right"),
            cell(text(numbers.percent(now, first)), "right soft"),
        )

    def told(self) -> str:
        """The heading and the table of how much of its opening intervals each bidder told."""
        caption = "How much was told"
        heads = [
            column_head(f"round {number}", f"right{older(number, self.count)}")
            for number in range(1, self.count)
        ]
        head = row(column_head("", "name"), *heads)
        names = [text(bidder.name) for bidder in self.journal.bidders]
        rows = [
            self.told_row(names[number], [at[number] for at in self.loose])
            for number in self.view.bidders
        ]
        foot = self.told_row("all", [sum(each) for each in self.loose])
        legend = key(
            "the share of the opening intervals that is gone after each round",
            "100&nbsp;% leaves none",
            tag("span", "earlier rounds stand on a wider screen", class_="narrow")
            if self.count - 1 > SHOWN_NARROW
            else "",
        )
        return tag("h3", caption) + table(caption, head, rows, foot) + legend

    def told_row(self, name: str, loose: list[int]) -> str:
        """The row of a bidder, or of all, that has so much uncertainty at each settlement."""
        first = loose[0]
        cells = [
            cell(
                text(numbers.percent(first - now, first) or "exact before"),
                f"right{' soft' if not first else ''}{older(number, self.count)}",
            )
            for number, now in enumerate(loose[1:], 1)
        ]
        return row(row_head(name, "name"), *cells)

    def reasons(self) -> str:
        """Why bids were refused, round by round, or over all rounds where they are many."""
        rounds = [(f"round {number + 1}: ", bids) for number, bids in enumerate(self.bids)]
        if self.refused > MANY_REFUSALS:
            rounds = [("", self.all_bids)]
        body = ""
        for verdict in sorted({bid.verdict for bid in self.all_bids} - {"accepted"}):
            count = sum(n for bid, n in self.all_bids.items() if bid.verdict == verdict)
            short, long = REASONS[verdict]
            long = long.format(numbers.whole(self.journal.settings.improve))
            mark = '<b class="bad">×</b>'
            body += tag("dt", f"{mark} {numbers.whole(count)} <b>{short}</b>: {long}")
            for when, bids in rounds:
                who = self.names(bids, verdict)
                body += tag("dd", when + who) if who else ""
        return body

    def names(self, bids: Counter[Judged], verdict: str) -> str:
        """Who got this verdict, how often, and at which node where rounds aren't summed."""
        found: Counter[str] = Counter()
        for bid, times in sorted(bids.items(), key=lambda item: rank(item[0])):
            if bid.verdict == verdict:
                at = bid.node is not None and self.refused <= MANY_REFUSALS
                found[bid.who + (f" at node {bid.node}" if at else "")] += times
        return ", ".join(
            tag("span", text(who) + f" ×{numbers.whole(times)}" * (times > 1))
            for who, times in found.items()
        )
