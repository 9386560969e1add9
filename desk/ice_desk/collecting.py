"""The bids of a round, collected by `examples/collect.py` into a round file."""
from __future__ import annotations

from pathlib import Path
from typing import Any

from ice_sheet import jsontext
from ice_sheet.faults import BadFile

from .folder import Folder, aside_file, round_file
from .staged import Staged
from .stop import Stop
from .tools import COLLECT, python, tests_senders

TAKEN, SOME_ASIDE = 0, 3
UNTESTED = "this collect.py can't test who sent a bid: look that each file has its sender's alone"


class Collected:
    """What was collected for a round: lines that say it, and where the round file is made."""

    def __init__(self, path: Path, told: list[str]) -> None:
        self.path, self.told = path, told


def collect(folder: Folder, staged: Staged, number: int) -> Collected:
    """Makes the round file of all bids that came for a round; Stop where that fails."""
    bids, others = folder.bids(number)
    path, aside = staged.path(round_file(number)), staged.path(aside_file(number))
    told = [f"bids-{number}: {name} is no .json, and isn't taken" for name in others]
    if not bids:
        path.write_text('{"bids": []}\n')
        aside.write_text('{"aside": []}\n')
        return Collected(path, told)
    named = ["--named"] if tests_senders() else []
    ran = python(COLLECT, *named, f"--aside={aside}", folder.market, *bids, into=path)
    if ran.status not in (TAKEN, SOME_ASIDE):
        raise Stop(ran.status, "\n".join(ran.errors) or f"collect ended with {ran.status}")
    if not aside.exists():
        aside.write_text('{"aside": []}\n')
    shorter = [line.replace(f"{folder.path}/", "") for line in ran.errors]
    return Collected(path, told + shorter + ([] if named else [UNTESTED]))


def late(folder: Folder, staged: Staged, number: int) -> str:
    """A word where the bids that came for a round aren't those of its file any more."""
    if not folder.bids(number)[0]:
        return ""
    try:
        now = bids_of(collect(folder, staged, number).path)
        then = bids_of(folder.file(round_file(number)))
    except (Stop, BadFile, OSError):
        return ""
    said = f"bids-{number} has other bids than {round_file(number)}: one that came late, or a hand"
    return "" if now == then else said


def bids_of(path: Path) -> list[Any]:
    """The bids of a round file."""
    value = jsontext.read(str(path))
    bids: list[Any] = value["bids"] if isinstance(value, dict) and "bids" in value else []
    return bids
