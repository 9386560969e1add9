"""A statement: what one bidder may see of a session, and nothing else.

That of a session which waits for bids ends with `end open`, behind the prices. It is read into a journal with this one bidder, so a page of it can't show anything more.
"""
from __future__ import annotations

from .journal import Group, Journal, Payment, Reader, Settings, Settlement, Stop
from .lines import Lines


class StatementReader(Reader):
    """Reads a statement from its lines, and keeps the bids with their numbers."""

    def __init__(self, lines: Lines) -> None:
        self.lines = lines
        (self.kept,) = lines.take("statement").fields
        settings = Settings(*lines.take("settings").fields)
        self.journal = Journal(0, "session", settings, of_statement=True)

    def read(self) -> Journal:
        """The session as its bidder sees it; BadJournal where the file is no statement."""
        self.read_goods()
        self.read_bidder()
        self.read_session()
        return self.whole()

    def require_own(self, name: str) -> None:
        """Gives up unless the record that was taken last is of the statement's bidder."""
        self.lines.require(name == self.kept, f"{name} stands in the statement of {self.kept}")

    def read_settlement(self, settlement: Settlement) -> bool:
        """A settlement up to its bids; False where the session closes in it."""
        settlement.regret = self.lines.take("regret").fields[0]
        self.read_own_set(settlement, "kept", "final")
        if self.closes(settlement):
            self.read_payment()
            return False
        self.read_own_set(settlement, "offered", "provisional")
        settlement.prices = self.prices(self.lines.take("prices"))
        if self.lines.word == "end":
            self.end("open")
        return self.journal.stop is None

    def read_own_set(self, settlement: Settlement, head: str, seeks: str) -> None:
        """The bidder's set in what a search found."""
        bits = self.read_set(head, self.journal.bidders[0])
        settlement.groups.append(Group(seeks, None, [bits], None))

    def read_payment(self) -> None:
        """Cut, surplus and the bidder's payment, which end the statement."""
        journal, lines = self.journal, self.lines
        journal.cut, journal.surplus = lines.take("threshold").fields
        name, *numbers = lines.take("payment").fields
        self.require_own(name)
        journal.payments.append(Payment(*numbers))
        journal.stop = Stop("closed", lines.number, [])
        lines.take("end statement")


def read_file(lines: Lines, kept: str | None = None) -> Journal:
    """The statement, or the journal with the bids of one bidder; BadJournal where it is neither."""
    reader = StatementReader(lines) if lines.word == "statement" else Reader(lines, kept)
    return reader.read()
