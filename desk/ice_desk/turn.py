"""One round: its bids are collected, the session is run and checked, and all files are made."""
from __future__ import annotations

import contextlib
import io
import tempfile
from dataclasses import dataclass, field
from pathlib import Path

from ice_page import command as page, numbers
from ice_page.journal import BadJournal, Journal
from ice_page.names import name_all, read_names
from ice_page.statement_command import Kept
from ice_page.statements import Watched, write_statements
from ice_page.words import awaited

from .collecting import collect, late
from .folder import Folder, read, read_journal
from .judge import answer, said
from .progress import Progress
from .public import public_page
from .staged import Staged
from .stop import OPEN, REFUSED, Stop, unread
from .tools import DIGEST, PROGRAM, TABLE, Ran, python, run, whole

CLOSED, SPENT, LIMIT = 0, 4, 5
MOST_PUBLISHED = 1 << 20


@dataclass
class Options:
    """What the words ask for: the program, and what pages and digests are to have."""

    program: Path = PROGRAM
    salt: str | None = None
    coins: int | None = None
    is_empty: bool = False
    is_trial: bool = False
    shown: list[str] = field(default_factory=list)


@dataclass
class Held:
    """What a round came to: the journal, the digest to publish, and lines on what was collected."""

    journal: Journal
    number: int
    digest: str
    told: list[str]
    files: list[str] = field(default_factory=list)


class Turn:
    """The round that is due in a folder."""

    def __init__(
        self, folder: Folder, staged: Staged, options: Options, progress: Progress
    ) -> None:
        self.folder, self.staged, self.options = folder, staged, options
        self.progress = progress
        self.rounds = folder.rounds()
        self.told: list[str] = []
        self.answer = ""

    def hold(self) -> Held:
        """Does all of it; Stop at the first thing that is wrong, with nothing put into place."""
        self.gather()
        journal = self.run()
        path = self.staged.path(self.folder.journal)
        self.progress.step(f"checking {self.folder.journal}")
        self.answer = answer(self.options.program, path, journal, self.progress.meanwhile)
        digest = self.digest()
        held = Held(journal, len(self.rounds), digest, self.told)
        if not self.options.is_trial:
            self.pages(held)
            held.files = self.staged.place()
        return held

    @property
    def coins(self) -> list[str]:
        """The word by which tables and pages have payments in coins, where that is asked for."""
        return [f"--unit-coins={self.options.coins}"] if self.options.coins else []

    # The bids

    def gather(self) -> None:
        """Collects the bids of the round that is awaited, where any came."""
        number, journal = len(self.rounds) + 1, self.folder.held()
        self.progress.step(f"collecting the bids of round {number}")
        waits = journal is not None and awaited(journal) and journal.last.number == number - 1
        came = bool(self.folder.bids(number)[0])
        if waits and (came or self.options.is_empty):
            collected = collect(self.folder, self.staged, number)
            self.rounds.append(collected.path)
            self.told += collected.told
            return
        if came and not waits:
            self.told.append(f"bids-{number} is left for the next time: its round isn't open yet")
        self.look_back(number - 1)

    def look_back(self, number: int) -> None:
        """Says where bids of the last round came behind its file."""
        if number:
            with tempfile.TemporaryDirectory(dir=self.staged.room) as room:
                with Staged(Path(room), ()) as other:
                    said = late(self.folder, other, number)
            self.told += [said] if said else []

    # The journal

    def run(self) -> Journal:
        """Runs the session, and gives its journal."""
        path, program = self.staged.path(self.folder.journal), self.options.program
        self.progress.step(f"running the session with {numbers.plural(len(self.rounds), 'round')}")
        words, meanwhile = (self.folder.market, *self.rounds), self.progress.meanwhile
        ran = run(program, "run", *words, into=path, meanwhile=meanwhile)
        if ran.status in (SPENT, LIMIT):
            self.keep_stopped(path, ran)
        if ran.status not in (CLOSED, OPEN):
            raise Stop(ran.status, said(ran, "run"))
        return read_journal(path)

    def keep_stopped(self, path: Path, ran: Ran) -> None:
        """Keeps the journal of a run that came to no end, under a name of its own, and stops."""
        name = f"{self.folder.stem}-stopped.journal"
        path.replace(self.folder.file(name))
        raise Stop(ran.status, f"{said(ran, 'run')}\nwhat was found stands in {name}")

    # The digest

    def digest(self) -> str:
        """The digest to publish, behind those that are published already, which have to hold."""
        salt = [f"--salt={whole(self.options.salt)}"] if self.options.salt else []
        path, listed = self.staged.path(self.folder.journal), self.folder.file("published")
        self.progress.step("comparing the digests")
        before = published(listed)
        if before:
            ran = python(DIGEST, *salt, path, listed)
            others = [line for line in ran.output.splitlines() if line.startswith("other ")]
            if ran.status:
                told = "\n".join(others or ran.errors)
                raise Stop(ran.status, f"digests that were published don't hold:\n{told}")
        ran = python(DIGEST, *salt, path)
        if ran.status:
            raise Stop(ran.status, said(ran, "ice-digest"))
        line = ran.output.strip()
        lines = before if line in before else [*before, line]
        self.staged.put(self.folder.published, "".join(f"{each}\n" for each in lines).encode())
        return line

    # The pages

    def pages(self, held: Held) -> None:
        """Makes the operator's page, the public one, and those of the bidders."""
        path, digest = self.staged.path(self.folder.journal), [f"--digest={held.digest}"]
        self.progress.step("making pages")
        checked, journal = [f"--checked={self.answer}"], held.journal
        self.page(path, self.folder.page, *checked, *digest)
        lines = published(self.staged.path(self.folder.published))
        shown = self.public_words()
        public = public_page(self.public_journal(path), lines, shown, self.answer)
        self.staged.put(self.folder.public, public.encode())
        names = [bidder.name for bidder in journal.bidders]
        if journal.end.word == "closed":
            self.close(path, names)
            return
        for name in names:
            own = [f"--bidder={name}", *checked, *digest]
            self.page(path, f"{name}-{held.number}.html", *own)
        self.statements_so_far(path, held.number)

    def statements_so_far(self, path: Path, number: int) -> None:
        """Makes each bidder's statement of a session that waits for bids."""
        found: dict[str, Kept] = {}
        with path.open("rb") as stream:
            write_statements(Watched(stream), lambda name: found.setdefault(name, Kept()))
        for name, kept in found.items():
            self.staged.put(f"{name}-{number}.statement", bytes(kept.data))

    def public_journal(self, path: Path) -> Journal:
        """The journal again, with full names of goods where a table has them."""
        journal, table = read_journal(path), self.public_words().get("names")
        if table:
            try:
                name_all(journal, read_names(table))
            except BadJournal as fault:
                raise Stop(REFUSED, f"{table}: {fault}") from None
        return journal

    def public_words(self) -> dict[str, str]:
        """What the words say of pages, by the name of the option."""
        pairs = (word.partition("=") for word in self.options.shown)
        return {name.removeprefix("--"): value for name, _, value in pairs}

    def page(self, source: Path, name: str, *words: str) -> None:
        """Makes a page of a file."""
        self.progress.part(name)
        told = [*self.options.shown, *words]
        errors = io.StringIO()
        with contextlib.redirect_stderr(errors):
            made = page.main([str(source), "-o", str(self.staged.path(name)), *told])
        if made:
            raise Stop(made, f"{errors.getvalue()}no page {name} was made")

    def close(self, path: Path, names: list[str]) -> None:
        """Makes the tables, and each bidder's statement with its page."""
        program, tables = self.options.program, self.folder.tables
        made = self.staged.room / tables
        ran = python(TABLE, path, made, *self.coins)
        if ran.status:
            raise Stop(ran.status, said(ran, "ice-table"))
        for table in sorted(made.iterdir()):
            self.staged.put(f"{tables}/{table.name}", table.read_bytes())
        for name in names:
            statement = self.staged.path(f"{name}.statement")
            ran = run(program, "statement", path, name, into=statement)
            if ran.status:
                raise Stop(ran.status, said(ran, "statement"))
            self.audit(statement, name)

    def audit(self, statement: Path, name: str) -> None:
        """Has a statement audited, and makes its page."""
        found = answer(self.options.program, statement, read(statement, name))
        self.page(statement, f"{name}.html", f"--checked={found}", *self.coins)


def published(path: Path) -> list[str]:
    """The lines of a list of digests; none where there is no such file."""
    if not path.exists():
        return []
    try:
        with path.open("rb") as stream:
            data = stream.read(MOST_PUBLISHED + 1)
    except OSError as fault:
        raise unread(fault, path) from None
    if len(data) > MOST_PUBLISHED:
        raise Stop(REFUSED, f"{path.name} is longer than {MOST_PUBLISHED:,} bytes")
    return data.decode("ascii", "replace").splitlines()
