"""What stands in the folder of a session: its market, rounds, bids, journal, and digests.

The names are those of the recipe in docs/operating.md, so that whoever works by hand and whoever
works by `ice-round` can take turns.
"""
from __future__ import annotations

import re
from pathlib import Path

from ice_page.journal import BadJournal, Journal, Lines
from ice_page.statement import read_file
from ice_sheet.faults import BadFile
from ice_sheet.market import Market, read_market

from .stop import REFUSED, Stop, plain, unread
from .tools import whole

ROUND = re.compile(r"round-([1-9][0-9]?)\.json")
MOST_ROUNDS = 20


def read(path: Path, kept: str | None = None) -> Journal:
    """The journal or the statement in a file; Stop where it is neither."""
    try:
        with path.open("rb", buffering=0) as stream:
            return read_file(Lines(stream), kept)
    except BadJournal as fault:
        raise Stop(REFUSED, f"{path.name}: {plain(str(fault))}") from None
    except OSError as fault:
        raise unread(fault, path) from None


def read_journal(path: Path) -> Journal:
    """The journal of a session in a file; Stop where it is none."""
    journal = read(path)
    if journal.of_statement or journal.kind != "session":
        raise Stop(REFUSED, f"{path.name}: no journal of a session")
    return journal


class Folder:
    """The folder in which the market's file stands, and the names of all files of its session."""

    def __init__(self, market: str) -> None:
        self.market = whole(market)
        self.path, self.stem = self.market.parent, self.market.stem
        self.journal = f"{self.stem}.journal"
        self.page, self.public = f"{self.stem}.html", f"{self.stem}-public.html"
        self.published, self.tables = "published", "tables"

    def read_market(self) -> Market:
        """The market; Stop where its file is none."""
        try:
            return read_market(str(self.market))
        except BadFile as fault:
            raise Stop(REFUSED, plain(str(fault))) from None
        except OSError as fault:
            raise unread(fault, self.market) from None

    def file(self, name: str) -> Path:
        """The path of a file of the folder."""
        return self.path / name

    def held(self) -> Journal | None:
        """The journal that stands there, where one does."""
        path = self.file(self.journal)
        return read_journal(path) if path.exists() else None

    def rounds(self) -> list[Path]:
        """The round files, from the first on; Stop where one is missing below another."""
        found = sorted(
            int(match[1]) for path in self.path.iterdir() if (match := ROUND.fullmatch(path.name))
        )
        for due, number in enumerate(found, 1):
            if number != due:
                raise Stop(REFUSED, f"round-{number}.json is there, and round-{due}.json isn't")
        return [self.file(round_file(number)) for number in found]

    def bids(self, number: int) -> tuple[list[Path], list[str]]:
        """The bids that came for a round, by name, and what else stands in their folder."""
        folder = self.file(f"bids-{number}")
        if not folder.is_dir():
            return [], []
        there = sorted(folder.iterdir(), key=lambda path: path.name)
        bids = [path for path in there if path.suffix == ".json" and path.name[0] != "."]
        return bids, [path.name for path in there if path not in bids]


def round_file(number: int) -> str:
    """The name of a round file."""
    return f"round-{number}.json"


def aside_file(number: int) -> str:
    """The name of the file of bids that were put aside in a round."""
    return f"aside-{number}.json"
