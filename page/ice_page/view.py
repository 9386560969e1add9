"""What a page is to show: a journal, the checker's answer, and for whom."""
from __future__ import annotations

from dataclasses import dataclass, field
from functools import cached_property

from .checker import Answer, total, worths
from .fair_file import FairPrices
from .journal import Journal
from .markup import foreign


@dataclass
class View:
    """A journal as it is to be shown to all, or to one bidder alone.

    A page for one bidder shows what is published and what is the bidder's own, as
    docs/formats.md lists it; it stays the same whatever else the others bid. Of a statement
    there is no other page.
    """

    journal: Journal
    answer: Answer
    title: str
    source: str
    unit: str = ""
    unit_coins: int | None = None
    bidder: int | None = None
    round: int | None = None
    date: str = ""
    program: str = ""
    digest: str = ""
    fair: FairPrices | None = None
    gap: Answer = field(default_factory=Answer)

    @property
    def alone(self) -> bool:
        """Whether the page is for one bidder."""
        return self.bidder is not None

    @property
    def file(self) -> str:
        """What kind of file the page is of."""
        return "statement" if self.journal.of_statement else "journal"

    @property
    def judge(self) -> str:
        """Who judges such a file."""
        return "audit" if self.journal.of_statement else "checker"

    @property
    def made(self) -> str:
        """Of which date the page is, and by which program the session was run, as somebody told."""
        return " · ".join(part for part in (self.date, self.program) if part)

    @property
    def whom(self) -> str:
        """For whom the page is, as an addition to its title."""
        alone = self.bidder is not None
        return f" · for {self.journal.bidders[self.bidder or 0].name} alone" if alone else ""

    @cached_property
    def bidders(self) -> list[int]:
        """The numbers of the bidders that are shown."""
        every = range(len(self.journal.bidders))
        return list(every) if self.bidder is None else [self.bidder]

    @cached_property
    def units(self) -> list[list[int]]:
        """The units that each bidder buys of each good, less what it sells."""
        goods = len(self.journal.goods)
        pairs = zip(self.journal.bidders, self.journal.shown.sets)
        return [bidder.units(bits, goods) for bidder, bits in pairs]

    @cached_property
    def worths(self) -> list[int]:
        """The lower value of each bidder's set."""
        return worths(self.journal)

    @cached_property
    def total(self) -> int:
        """The value of the trade."""
        return total(self.journal)

    @property
    def with_unit(self) -> str:
        """The unit of values as markup, with a space before it."""
        return f" {foreign(self.unit)}" if self.unit else ""

    @property
    def is_proven(self) -> bool:
        """Whether the trade is proven to be a best one: the checker said so of its proof.

        Where a later search was spent, the proof of the final trade stands before the stop.
        """
        journal = self.journal
        if journal.end.word == "spent" and not self.alone:
            return self.answer.fits(journal) and journal.last.group("final") is not None
        return self.answer.says_yes(journal) and journal.last.group("rival") is not None
