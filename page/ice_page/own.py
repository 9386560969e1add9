"""What one bidder needs to bid: its sets at the prices, when its next bid counts, and its bids."""
from __future__ import annotations


from . import words
from .advice import Advice, values
from .journal import BadJournal, Journal, Settlement
from .markup import amounts, cell, column_head, key, row, row_head, table, tag, text
from .nets import BEHIND, Row, Table, table_of
from .rules import Offer, offer
from .view import View


class Round:
    """A round as one bidder sees it: what it was offered, and what is said of that."""

    def __init__(self, journal: Journal, settlement: Settlement, found: Offer) -> None:
        self.number, self.settlement, self.offer = settlement.number + 1, settlement, found
        self.advice = Advice(found, journal.goods, journal.settings)
        self.goods = journal.goods

    def table(self) -> Table:
        """The table of nets."""
        return table_of(self.offer, len(self.goods))


def round_of(journal: Journal, settlement: Settlement, bidder: int) -> Round | None:
    """The round that follows a settlement; None where none does."""
    found = offer(journal, settlement, bidder)
    return Round(journal, settlement, found) if found else None


def round_shown(journal: Journal, bidder: int, number: int | None) -> Round | None:
    """The round of this number, or else the awaited one; BadJournal where it isn't there."""
    if number is None:
        return round_of(journal, journal.last, bidder) if words.awaited(journal) else None
    held = journal.settlements[number - 1 : number] if number > 0 else []
    found = round_of(journal, held[0], bidder) if held else None
    if found is None:
        raise BadJournal(f"it has no round {number}")
    return found


# The sets at the prices


def standing(found: Row) -> str:
    """How a set stands, in words."""
    state = "can’t be best" if found.state == BEHIND else found.state
    return f"provisional, {state}" if found.is_provisional else state


def set_row(view: View, found: Row) -> str:
    """The row of a set."""
    name = text(words.trade(found.units, view.journal.goods))
    note = tag("div", f"{standing(found)} · {words.places(found.bits)}", class_="soft")
    look = "idle" if found.state == BEHIND else "chosen" if found.is_provisional else None
    nets = (found.cost, found.least, found.most)
    cells = (cell(amounts(number), "right") for number in nets)
    return row(row_head(name + note), *cells, class_=look)


def nets_section(view: View) -> str:
    """The section of a bidder whose bid is awaited."""
    if view.bidder is None:
        return ""
    shown = round_shown(view.journal, view.bidder, view.round)
    if shown is None:
        return ""
    nets = shown.table()
    caption = f"Round {shown.number}: your sets at the prices"
    heads = ("costs", "leaves at least", "at most")
    head = row(column_head("set"), *(column_head(name, "right") for name in heads))
    unit = f"in{view.with_unit}" if view.unit else ""
    legend = key(
        "costs: what its units cost at the prices, below 0 where you would receive it",
        "leaves: your value less that",
        "open: best by some values inside your intervals, and not by others",
        unit,
    )
    says = "".join(tag("p", text(each)) for each in shown.advice.sentences(nets))
    return (
        tag("h2", caption)
        + table(caption, head, [set_row(view, each) for each in nets.rows], class_="told sets")
        + legend
        + tag("p", text(shown.advice.extent(nets)), class_="soft")
        + tag("div", says, class_="advice")
    )


# Its bids


def bids_section(view: View) -> str:
    """All bids of one bidder, with their numbers and verdicts in words."""
    if view.bidder is None:
        return ""
    rows = []
    for settlement in view.journal.settlements:
        held = round_of(view.journal, settlement, view.bidder)
        rows += bid_rows(held) if held else []
    if not rows:
        return ""
    head = row(column_head("round"), column_head("values by node"), column_head("verdict"))
    return (
        tag("h2", "Your bids")
        + table("Your bids", head, rows, class_="told bids")
        + key(
            "the values of each node, as you stated them; a node that isn’t named has 0",
            "<b>bold</b>: other than before",
        )
    )


def bid_rows(held: Round) -> list[str]:
    """The rows of the bids of a round."""
    rows = []
    for bid in held.settlement.kept:
        stated = (
            tag("span", tag("b", text(each)) if is_new else text(each), class_="value")
            for each, is_new in values(bid, held.offer.bounds)
        )
        good = bid.verdict == "accepted"
        sign = '<b class="good">●</b> ' if good else '<b class="bad">×</b> '
        rows.append(
            row(
                row_head(str(held.number)),
                cell(" ".join(stated)),
                cell(sign + text(held.advice.verdict(bid))),
            )
        )
    return rows
