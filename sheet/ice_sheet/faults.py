"""What is wrong with a file, in words, with the place."""
from __future__ import annotations

from typing import NamedTuple

from .spelling import spelled

MOST_SHOWN, MOST_NOTED = 20, 1000


class Fault(NamedTuple):
    """A fault of a table: its line, its column as a spreadsheet names it with its head, and words.

    A line of 0 is the table as a whole, and no column the line as a whole.
    """

    line: int
    column: str
    words: str

    def __str__(self) -> str:
        column = f", column {self.column}" if self.column else ""
        place = f"line {self.line}{column}: " if self.line else ""
        return spelled(place + self.words)


class BadTable(Exception):
    """The table is refused; the faults are in the order of its lines."""

    def __init__(self, faults: list[Fault]) -> None:
        super().__init__()
        self.faults = sorted(faults, key=lambda fault: fault.line)

    def told(self) -> list[str]:
        """A line for each fault, the first of them where they are many."""
        lines = [str(fault) for fault in self.faults[:MOST_SHOWN]]
        left = len(self.faults) - MOST_SHOWN
        more = f"{left} more" if len(self.faults) < MOST_NOTED else "many more"
        return lines + [f"and {more}"] * (left > 0)


class BadFile(Exception):
    """A file in JSON is refused: the text says where and why."""


def shown(text: str) -> str:
    """What stands in a file, cut where it is long, on one line and in characters that print."""
    flat = " ".join(text.split())
    return f"`{spelled(flat[:40])}..`" if len(flat) > 43 else f"`{spelled(flat)}`"
