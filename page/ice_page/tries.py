"""Who was refused in the last round that had refusals, by name, with its last try."""
from __future__ import annotations

from . import numbers
from .advice import values
from .course import REASONS
from .journal import Bid, Settlement
from .markup import cell, column_head, key, row, row_head, table, tag, text
from .view import View

MOST_VALUES = 12


def tries_part(view: View) -> str:
    """A table of those refused in that round; nothing for one bidder, or where none was."""
    if view.alone:
        return ""
    held = (each for each in reversed(view.journal.settlements) if refused(each))
    last = next(held, None)
    return Tries(view, last).whole() if last else ""


def refused(settlement: Settlement) -> bool:
    """Whether a bid that followed a settlement was refused."""
    return any(bid.verdict != "accepted" for bid in settlement.bids)


class Tries:
    """The last try of each bidder that was refused in a round."""

    def __init__(self, view: View, settlement: Settlement) -> None:
        self.bidders, self.settlement = view.journal.bidders, settlement

    def whole(self) -> str:
        """The heading and the table."""
        caption = f"Who was refused in round {self.settlement.number + 1}, and its last such try"
        head = row(column_head(""), column_head("values by node"), column_head("verdict"))
        rows = [self.bidder(number, bid) for number, bid in sorted(self.settlement.tries.items())]
        return (
            tag("h3", caption)
            + table(caption, head, rows + self.unknown(), class_="told bids tries")
            + key("of the values of each node those that are other than before")
        )

    def bidder(self, number: int, bid: Bid) -> str:
        """The row of a bidder."""
        name = self.bidders[number].name
        at = "" if bid.node is None else f" at node {bid.node}"
        return line(name, self.stated(number, bid), bid.verdict, at + self.counted(name))

    def stated(self, number: int, bid: Bid) -> list[str]:
        """What the bid said that was new, as words."""
        low, high = bounds = self.settlement.bounds[number]
        if not len(bid.low) == len(bid.high) == len(low):
            nodes = numbers.plural(len(high), "node")
            return [f"{len(bid.low)} lower and {len(bid.high)} upper for {nodes}"]
        new = [stated for stated, is_new in values(bid, bounds) if is_new]
        if len(new) > MOST_VALUES:
            new[MOST_VALUES:] = [f"and {numbers.whole(len(new) - MOST_VALUES)} more"]
        return new or ["none"]

    def counted(self, name: str) -> str:
        """How many bids under a name were refused in the round, and how many accepted."""
        found = [(bid, times) for bid, times in self.settlement.bids.items() if bid.who == name]
        good = sum(times for bid, times in found if bid.verdict == "accepted")
        bad = sum(times for _, times in found) - good
        return f"; {numbers.whole(bad)} refused and {numbers.whole(good)} accepted in this round"

    def unknown(self) -> list[str]:
        """The rows of names that no bidder has."""
        names = sorted({bid.who for bid in self.settlement.bids if bid.bidder is None})
        return [line(name, [], "45", self.counted(name)) for name in names]


def line(name: str, stated: list[str], verdict: str, more: str) -> str:
    """A row: a name, what was stated, and why it was refused."""
    short, _ = REASONS[verdict]
    shown = " ".join(tag("span", text(each), class_="value") for each in stated)
    why = f'<b class="bad">×</b> <b>{short}</b>{text(more)}'
    return row(row_head(text(name)), cell(shown), cell(why))
