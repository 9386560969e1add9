"""A file of fair prices, as `ice fair` writes it of a journal: it is retold and not judged."""
from __future__ import annotations

from dataclasses import dataclass
from fractions import Fraction

from .journal import Journal
from .lines import BadJournal, Lines

MOST_ROWS = 200


@dataclass
class FairPrices:
    """Prices, what a bidder would gain at most by another set at them, and their distance.

    The distance is the greatest difference of what a bidder pays and what its set costs.
    """

    prices: list[Fraction]
    violation: Fraction
    distance: Fraction


class FairReader:
    """Reads fair prices of a journal from their lines."""

    def __init__(self, lines: Lines, journal: Journal) -> None:
        self.lines, self.journal = lines, journal

    def read(self) -> FairPrices:
        """The prices; BadJournal where the file has none, or none of this journal."""
        lines = self.lines
        denominator, numerators = lines.take("prices").fields
        count, goods = len(numerators), len(self.journal.goods)
        lines.require(count == goods, f"{count} prices of {goods} goods")
        violation, _ = lines.take("accuracy").fields
        self.pass_rows()
        (distance,) = lines.take("distance").fields
        lines.take("fairness")
        self.pass_holds()
        self.pass_rows()
        lines.take("end fair")
        if not lines.ended:
            lines.bad(f"`{lines.line[:60]}` stands after the end")
        prices = [Fraction(number, denominator) for number in numerators]
        return FairPrices(prices, Fraction(violation, 100 * denominator), distance)

    def require_bidder(self, number: int) -> None:
        """Gives up where the record that was taken last names a bidder that isn't there."""
        count = len(self.journal.bidders)
        self.lines.require(number < count, f"bidder {number} of {count} bidders")

    def pass_rows(self) -> None:
        """Passes the sets of a certificate."""
        count = 0
        while self.lines.word == "row" and not self.lines.ended:
            number, _, bits = self.lines.take("row").fields
            self.require_bidder(number)
            bidder = self.journal.bidders[number]
            found, nodes, count = len(bits), len(bidder.nodes), count + 1
            says = f"{found} bits for the {nodes} nodes of {bidder.name}"
            self.lines.require(found == nodes, says)
            self.lines.require(count <= MOST_ROWS, f"more than {MOST_ROWS} rows")

    def pass_holds(self) -> None:
        """Passes the numbers of bidders, which stand in the bidders' order."""
        last = -1
        while self.lines.word == "hold" and not self.lines.ended:
            number, low, high = self.lines.take("hold").fields
            self.require_bidder(number)
            self.lines.require(number > last, "bidders out of their order")
            self.lines.require(bool(low or high), "both numbers of a bidder are 0")
            last = number


def read_fair(name: str, journal: Journal) -> FairPrices:
    """The fair prices that a file has of a journal; BadJournal where it has none of it."""
    if journal.of_statement:
        raise BadJournal("they go with the journal, and this is a statement")
    if not journal.payments:
        raise BadJournal("they go with a session that has closed")
    with open(name, "rb", buffering=0) as stream:
        return FairReader(Lines(stream), journal).read()
