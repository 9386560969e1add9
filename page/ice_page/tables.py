"""A journal as tables: payments, trades, prices, settlements and bids."""
from __future__ import annotations

import io
from dataclasses import dataclass
from fractions import Fraction
from itertools import zip_longest
from typing import BinaryIO, Iterable, Iterator, NamedTuple

from .checker import worths
from .course import REASONS
from .journal import Group, Journal, read_journal
from .lines import Lines
from .records import Record

WAITING = ("open", "refused", "unread")
ACCEPTED = "accepted"

Value = int | str | Fraction | None


class Table(NamedTuple):
    """A table: its name, its heads, and its rows, to be taken once. A cell of None is empty."""

    name: str
    heads: list[str]
    rows: Iterable[list[Value]]


class Bid(NamedTuple):
    """A submission as it stands in the journal, with its verdict and the node at fault."""

    bidder: str
    low: list[str]
    high: list[str]
    verdict: str
    node: int | None


@dataclass
class Counts:
    """What is counted of a settlement: its violation, and the bids behind it.

    A violation stands in the journal in hundredths, times the prices' denominator; here it is in
    the unit of the values.
    """

    violation: Fraction | None = None
    bids: int = 0
    accepted: int = 0


class Noting(Lines):
    """Lines of a journal that count what the journal itself doesn't hold, and put its bids aside.

    `noted` has the settlements, and the file into which the lines of bids are put, so that of any
    number of bids none stays in memory.
    """

    def __init__(self, stream: BinaryIO, aside: BinaryIO | None = None) -> None:
        self.noted = Noted(aside or io.BytesIO())
        super().__init__(stream)

    def take(self, *heads: str) -> Record:
        line = self.line
        record = super().take(*heads)
        self.noted.note(line, record)
        return record


class Noted:
    """What was noted of a journal while it was read."""

    def __init__(self, aside: BinaryIO) -> None:
        self.aside, self.denominator = aside, 1
        self.settlements: list[Counts] = []

    def note(self, line: str, record: Record) -> None:
        """Notes a record, and puts its line aside where it is of a bid."""
        head, fields = record
        word = head.partition(" ")[0]
        if word == "settle":
            self.settlements.append(Counts())
        elif word == "prices":
            self.denominator = fields[0]
        elif word == "accuracy":
            self.settlements[-1].violation = Fraction(fields[0], 100 * self.denominator)
        elif word == "verdict":
            self.settlements[-1].bids += 1
            self.settlements[-1].accepted += head.endswith(ACCEPTED)
        if word in ("settle", "submit", "verdict"):
            self.aside.write(f"{line}\n".encode())

    def bids(self) -> Iterator[tuple[int, Bid]]:
        """Each bid in its order, with the settlement behind which it stands."""
        self.aside.seek(0)
        submitted, settlement = [""], 0
        for line in self.aside:
            word, *fields = line.decode().split()
            if word == "settle":
                settlement = int(fields[0])
            elif word == "submit":
                submitted = fields
            else:
                name, count = submitted[0], int(submitted[1])
                node = int(fields[1]) if len(fields) > 1 else None
                low, high = submitted[2 : 2 + count], submitted[3 + count :]
                yield settlement, Bid(name, low, high, fields[0], node)


class Told(NamedTuple):
    """All bids of a journal, settlement by settlement."""

    bids: list[list[Bid]]


def told_by(noted: Noted) -> Told:
    """The bids behind each settlement, all of them in memory: of journals that one made oneself."""
    told = Told([[] for _ in noted.settlements])
    for settlement, bid in noted.bids():
        told.bids[settlement].append(bid)
    return told


def rounded(numbers: list[Fraction], coins: int) -> list[Fraction]:
    """The numbers in whole coins, of which a unit has so many, by the largest remainder.

    Each is rounded down, and one coin more goes to those that lost most, the first where several
    lost the same, until the sum is that of the numbers, rounded down to a coin.
    """
    parts = [divmod(number * coins, 1) for number in numbers]
    left = sum(numbers) * coins // 1 - sum(down for down, _ in parts)
    ranks = sorted(range(len(parts)), key=lambda place: -parts[place][1])
    more = set(ranks[:left])
    return [Fraction(down + (place in more), coins) for place, (down, _) in enumerate(parts)]


def fraction(name: str) -> list[str]:
    """The heads of a fraction: as a decimal, and exactly."""
    return [name, f"{name}_numerator", f"{name}_denominator"]


def exactly(number: Fraction | None) -> list[Value]:
    """The cells of a fraction."""
    if number is None:
        return [None] * 3
    return [number, number.numerator, number.denominator]


def payments(journal: Journal, coins: int | None) -> Table:
    """What each bidder pays, below 0 where it is paid; no rows where the session didn't close."""
    heads = ["bidder", "value", "vickrey", *fraction("discount"), *fraction("payment")]
    rows: list[list[Value]] = [
        [bidder.name, worth, paid.vickrey, *exactly(paid.discount), *exactly(paid.payment)]
        for bidder, worth, paid in zip(journal.bidders, worths(journal), journal.payments)
    ]
    if coins is not None:
        heads.append("coins")
        exact = [paid.payment for paid in journal.payments]
        rows = [[*row, number] for row, number in zip(rows, rounded(exact, coins))]
    return Table("payments", heads, rows)


def trade_of(journal: Journal) -> tuple[str, Group]:
    """The trade that stands at the journal's end, and what it is."""
    provisional = journal.last.group("provisional")
    if journal.end.word in WAITING and provisional:
        return "provisional", provisional
    closed = journal.end.word in ("closed", "assign", "regret")
    return "final" if closed else "found", journal.shown


def trades(journal: Journal) -> Table:
    """The units that each bidder gets of each good, below 0 where it gives them."""
    what, group = trade_of(journal)
    rows: list[list[Value]] = []
    for bidder, bits in zip(journal.bidders, group.sets):
        units = bidder.units(bits, len(journal.goods))
        rows += [
            [what, bidder.name, good.name, count]
            for good, count in zip(journal.goods, units)
            if count
        ]
    return Table("trades", ["trade", "bidder", "good", "units"], rows)


def prices(journal: Journal) -> Table:
    """The price of each good at each settlement that has prices."""
    rows: list[list[Value]] = [
        [settlement.number, good.name, *exactly(price)]
        for settlement in journal.settlements
        for good, price in zip(journal.goods, settlement.prices or [])
    ]
    return Table("prices", ["settlement", "good", *fraction("price")], rows)


def settlements(journal: Journal, noted: Noted) -> Table:
    """What was found at each settlement, all in the unit of the values, and the bids behind it."""
    heads = ["settlement", "final", "rival", "regret", *fraction("provisional")]
    heads += [*fraction("violation"), "bids", "accepted", "refused"]
    rows: list[list[Value]] = []
    for settlement, counts in zip_longest(journal.settlements, noted.settlements):
        counts = counts or Counts()
        groups = [settlement.group(seeks) for seeks in ("final", "rival", "provisional")]
        final, rival, mixed = (group.value if group else None for group in groups)
        provisional = None if mixed is None else Fraction(mixed, 100)
        row: list[Value] = [settlement.number, final, rival, settlement.regret]
        row += [*exactly(provisional), *exactly(counts.violation)]
        rows.append([*row, counts.bids, counts.accepted, counts.bids - counts.accepted])
    return Table("settlements", heads, rows)


def meaning(bid: Bid, journal: Journal) -> str:
    """The verdict in words."""
    if bid.verdict == ACCEPTED:
        return ACCEPTED
    short, long = REASONS[bid.verdict]
    return f"{short}: {long.format(journal.settings.improve)}".replace("’", "'")


def bids(journal: Journal, noted: Noted) -> Table:
    """Each bid in the order in which it was judged, with its numbers in the order of the nodes."""
    heads = ["round", "number", "bidder", "verdict", "node", "meaning", "lo", "hi"]
    return Table("bids", heads, bid_rows(journal, noted))


def bid_rows(journal: Journal, noted: Noted) -> Iterator[list[Value]]:
    """The rows of all bids, each made when it is wanted."""
    last, number = 0, 0
    for settlement, bid in noted.bids():
        last, number = settlement, number + 1 if settlement == last else 1
        row: list[Value] = [settlement + 1, number, bid.bidder, bid.verdict, bid.node]
        yield [*row, meaning(bid, journal), " ".join(bid.low), " ".join(bid.high)]


def read_tables(
    stream: BinaryIO, coins: int | None = None, aside: BinaryIO | None = None
) -> list[Table]:
    """The tables of a journal; BadJournal where it is none.

    Where `coins` is given, payments have a column more: in whole coins, of which a unit has so
    many. The lines of bids are put into the file `aside`, from which their rows are made.
    """
    lines = Noting(stream, aside)
    journal, noted = read_journal(lines), lines.noted
    return [
        payments(journal, coins),
        trades(journal),
        prices(journal),
        settlements(journal, noted),
        bids(journal, noted),
    ]
