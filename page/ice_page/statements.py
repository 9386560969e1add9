"""Statements of all bidders of a session, made of its journal's lines as they stand there.

Of a session that closed they are what `ice statement` writes. Of one that waits for bids they have
the lines of a statement up to there, and then `end open`.
"""
from __future__ import annotations

import hashlib
from typing import Callable, NamedTuple, Protocol

from .journal import BadJournal, Reader
from .lines import Lines
from .records import Record

HEADS = ("settings", "good", "exact")
GROUPS = ("assign", "final", "rival", "provisional", "without", "spent")
AWAITED = ("open", "refused", "unread")


class Sink(Protocol):
    """Takes the bytes of one bidder's statement as they come."""

    def update(self, data: bytes, /) -> object:
        """Takes some more bytes."""


MakeSink = Callable[[str], Sink | None]


class Watched(Lines):
    """Lines of which each record that is taken is shown to somebody, with its text."""

    seen: Callable[[Record, str], None] | None = None

    def take(self, *heads: str) -> Record:
        """The record in view, which has to be one of these."""
        line = self.line
        record = super().take(*heads)
        if self.seen:
            self.seen(record, line)
        return record


class Part(NamedTuple):
    """A bidder: its place, its name, and where its statement goes."""

    place: int
    name: str
    sink: Sink


class Writer:
    """Hands each bidder the lines that it may see.

    `make` gives the sink of a bidder's name, or None where nobody wants that statement.
    """

    def __init__(self, make: MakeSink) -> None:
        self.make, self.parts = make, []  # type: MakeSink, list[Part]
        self.places = 0
        self.front: list[str] = []
        self.settle, self.group, self.whose = "", "", ""
        self.sets: dict[str, list[str]] = {}

    def put(self, line: str, name: str | None = None) -> None:
        """A line for all, or for the bidder of a name."""
        for part in self.parts:
            if name in (None, part.name):
                part.sink.update(f"{line}\n".encode())

    def put_sets(self, head: str, group: str) -> None:
        """To each bidder its own set of a group."""
        for part in self.parts:
            part.sink.update(f"{head} {self.sets[group][part.place]}\n".encode())

    def begin(self, name: str, line: str) -> None:
        """The next bidder of the section."""
        sink = self.make(name)
        if sink is not None:
            self.parts.append(Part(self.places, name, sink))
            for each in (f"statement {name}", *self.front, line):
                sink.update(f"{each}\n".encode())
        self.places += 1

    def see(self, record: Record, line: str) -> None:
        """A record of the journal."""
        word = record.head.partition(" ")[0]
        if word in HEADS:
            self.front.append(line)
        elif word in GROUPS:
            self.group, self.sets[word] = word, []
        elif word == "set":
            self.sets[self.group].append(record.fields[0])
        elif word == "settle":
            self.settle = line
        elif word in ("bidder", "submit", "payment"):
            self.whose = record.fields[0]
            if word == "bidder":
                self.begin(self.whose, line)
            else:
                self.put(line, self.whose)
        elif word in ("node", "verdict"):
            self.put(line, self.whose)
        elif word == "regret":
            self.put(self.settle)
            self.put(line)
            self.put_sets("kept", "final")
        elif word == "prices":
            self.put_sets("offered", "provisional")
            self.put(line)
        elif word == "threshold":
            self.put(line)


class Written(NamedTuple):
    """What the statements are of: whether the session has closed, and its last settlement."""

    closed: bool
    settlement: int


def write_statements(lines: Watched, make: MakeSink) -> Written:
    """Writes the statements of a session; BadJournal where it neither closed nor waits for bids."""
    writer = Writer(make)
    lines.seen = writer.see
    journal = Reader(lines).read()
    names = [bidder.name for bidder in journal.bidders]
    if len(set(names)) < len(names):
        raise BadJournal("two bidders have one name")
    word = journal.end.word
    if journal.kind != "session" or word != "closed" and word not in AWAITED:
        raise BadJournal(f"no statements: it ends with `{word}`, and neither closed nor waits")
    writer.put("end statement" if word == "closed" else "end open")
    return Written(word == "closed", journal.last.number)


class Salted:
    """The SHA-256 of a salt and the bytes that come behind it."""

    def __init__(self, salt: bytes) -> None:
        self.hash = hashlib.sha256(salt)

    def update(self, data: bytes, /) -> None:
        """Takes some more bytes."""
        self.hash.update(data)

    def hexdigest(self) -> str:
        """The digest, in hexadecimal digits."""
        return self.hash.hexdigest()
