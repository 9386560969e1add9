"""What the tests share: a folder of the season's session, and the commands in it."""
from __future__ import annotations

import contextlib
import io
import json
import os
import re
import shutil
import sys
import tempfile
import unittest
from pathlib import Path
from typing import Callable
from unittest import mock

HERE = Path(__file__).resolve().parent
TOP = HERE.parents[1]
sys.dont_write_bytecode = True
sys.path[:0] = [str(TOP / part) for part in ("desk", "page", "sheet")]

from ice_desk import public_command, round_command, without_command  # noqa: E402
from ice_desk.folder import read_journal  # noqa: E402
from ice_page.checker import due  # noqa: E402

EXAMPLES = TOP / "examples"
SEASON, HALL = EXAMPLES / "season-session.journal", EXAMPLES / "hall-session.journal"
HALL_WITHOUT = HERE / "hall-without-opera.journal"
PROGRAM = f"--program={HERE / 'program'}"
NAMES = re.findall(r"(?m)^bidder (\S+)", SEASON.read_text())
# The status, standard output and standard error.
Ran = tuple[int, str, str]
MINE = ("bidder", "submit", "payment")


def fronts(journal: str) -> list[str]:
    """The journal as it was after each round, and as it is."""
    found = []
    for place in [each.start() for each in re.finditer("^settle ", journal, re.M)][:-1]:
        bids = re.compile("^(submit|settle) ", re.M).search(journal, place + 1)
        assert bids is not None
        found.append(journal[: bids.start()] + "end open\n")
    return [*found, journal]


def statement_of(journal: str, name: str) -> str:
    """The statement of a bidder, as docs/formats.md says what it may see."""
    names = re.findall(r"(?m)^bidder (\S+)", journal)
    lines, whose, group, sets = [f"statement {name}"], "", "", 0
    found: dict[str, str | None] = {}
    for line in journal.splitlines():
        word, *fields = line.split()
        whose = fields[0] if word in MINE else whose
        if word in ("final", "rival", "provisional", "without"):
            group, sets = word, 0
        elif word == "set":
            found[group] = fields[0] if sets == names.index(name) else found.get(group)
            sets += 1
        elif word in ("settings", "good", "exact", "settle", "threshold"):
            lines.append(line)
        elif word == "regret":
            lines += [line, f"kept {found['final']}"]
        elif word == "prices":
            lines += [f"offered {found['provisional']}", line]
        elif word in (*MINE, "node", "verdict") and whose == name:
            lines.append(line)
    return "".join(f"{line}\n" for line in [*lines, "end statement"])


def play(folder: Path) -> None:
    """Writes what the stand-in answers: of the season's session, and of the hall's."""
    journal = SEASON.read_text()
    for number, front in enumerate(fronts(journal)):
        (folder / f"run.{number}").write_text(front)
    for text in (*fronts(journal), HALL.read_text(), HALL_WITHOUT.read_text()):
        file = folder / "some.journal"
        file.write_text(text)
        (folder / f"check.{len(text)}").write_text(due(read_journal(file)) + "\n")
    for name in NAMES:
        (folder / f"{name}.statement").write_text(statement_of(journal, name))


class Desk(unittest.TestCase):
    """Each test has a folder of its own, with the season's market and a stand-in that ran it."""

    opened: dict[str, bytes] = {}
    played: Path

    @classmethod
    def setUpClass(cls) -> None:
        cls.played = Path(tempfile.mkdtemp(prefix="played-"))
        cls.addClassCleanup(shutil.rmtree, cls.played)
        play(cls.played)

    def setUp(self) -> None:
        self.folder = Path(tempfile.mkdtemp(prefix="desk-"))
        self.addCleanup(shutil.rmtree, self.folder)
        self.addCleanup(os.chdir, Path.cwd())
        os.chdir(self.folder)
        shutil.copy(EXAMPLES / "season.json", self.folder / "market.json")
        self.where = {**os.environ, "PLAYED": str(self.played)}

    def open(self) -> None:
        """Opens the session, as the first call does; that is called once for all tests."""
        if not Desk.opened:
            self.round()
            Desk.opened = self.files()
        for name, data in Desk.opened.items():
            (self.folder / name).write_bytes(data)

    def bids_come(self, number: int) -> None:
        """Writes the bids of a round of the season, each a file with its time and its bidder."""
        there = self.folder / f"bids-{number}"
        there.mkdir(exist_ok=True)
        bids = json.loads((EXAMPLES / f"season-round-{number}.json").read_text())["bids"]
        for place, bid in enumerate(bids):
            (there / f"{1000 + place}-{bid['bidder']}.json").write_text(json.dumps(bid))

    def call(self, main: Callable[[list[str]], int], *words: object, **settings: str) -> Ran:
        """Runs a command in the folder: its status, and what it wrote."""
        errors, made = io.StringIO(), io.BytesIO()
        output = io.TextIOWrapper(made, encoding="utf-8")
        with (
            contextlib.redirect_stdout(output),
            contextlib.redirect_stderr(errors),
            mock.patch.dict(os.environ, {**self.where, **settings}),
        ):
            try:
                status = main(list(map(str, words)))
            except SystemExit as end:
                status = int(end.code or 0)
        output.flush()
        return status, made.getvalue().decode(), errors.getvalue()

    def round(self, *words: str, market: str = "market.json", **settings: str) -> Ran:
        """Holds a round with the stand-in."""
        return self.call(round_command.main, market, PROGRAM, *words, **settings)

    def without(self, *words: object, **settings: str) -> Ran:
        """Leaves a bidder out of the hall's session, which the stand-in runs without the opera."""
        settings = {"WITHOUT": str(HALL_WITHOUT), **settings}
        return self.call(without_command.main, *words, PROGRAM, **settings)

    def public(self, *words: object) -> Ran:
        """Makes a public page."""
        return self.call(public_command.main, *words)

    def files(self) -> dict[str, bytes]:
        """All files of the folder, those that are hidden too."""
        return {
            str(path.relative_to(self.folder)): path.read_bytes()
            for path in sorted(self.folder.rglob("*"))
            if path.is_file()
        }
