"""A line on the terminal that says which step a command is at, while it works."""
from __future__ import annotations

import os
import sys
import time

from .stop import plain

FROM = 1  # seconds from which on a step says how long it takes
USUAL = 80  # columns of a terminal that doesn't say how many it has


def columns() -> int:
    """How many columns the terminal of standard error has."""
    try:
        return os.get_terminal_size(sys.stderr.fileno()).columns or USUAL
    except OSError:
        return USUAL


class Progress:
    """One line on standard error, written again and again where that is a terminal, and else none.

    It leaves the terminal as if it had never been there.
    """

    def __init__(self, name: str, steps: int) -> None:
        self.name, self.steps = name, steps
        self.is_shown = sys.stderr is not None and sys.stderr.isatty()
        self.number, self.words, self.began, self.width = 0, "", 0.0, 0

    def __enter__(self) -> Progress:
        return self

    def __exit__(self, *_: object) -> None:
        self.write("")

    def step(self, words: str) -> None:
        """The next step begins."""
        self.number += 1
        self.words, self.began = words, time.monotonic()
        self.show("")

    def part(self, words: str) -> None:
        """The step has come to a part of it."""
        self.show(words)

    def meanwhile(self, said: str) -> None:
        """The step goes on: how long it has taken, and what its program said last."""
        seconds = int(time.monotonic() - self.began)
        taken = f"{seconds} s" if seconds >= FROM else ""
        self.show(", ".join(filter(None, (taken, said))))

    def show(self, more: str) -> None:
        """Shows the step, with some more words behind it."""
        line = f"{self.name}: {self.number} of {self.steps}, {self.words}"
        self.write(f"{line}: {more}" if more else line)

    def write(self, line: str) -> None:
        """Writes the line over the one before; a terminal that is gone is told no more."""
        if not self.is_shown:
            return
        # One that went to the next line could not be written over.
        line = plain(line)[: columns() - 1]
        blank = " " * (self.width - len(line))
        try:
            sys.stderr.write(f"\r{line}{blank}" if line else f"\r{blank}\r")
            sys.stderr.flush()
        except OSError:
            self.is_shown = False
        self.width = len(line)
