"""What the commands share: words in any order, what is said on a terminal, and how they end."""
from __future__ import annotations

import argparse
import errno
import functools
import os
import re
import sys
from contextlib import contextmanager
from typing import BinaryIO, Callable, Iterator, NoReturn, Sequence, TextIO

from .lines import BadJournal
from .plain import plain

DONE, BAD_WORDS, BAD_FILE, UNREAD, UNWRITTEN, NO_MEMORY, INTERRUPTED = 0, 1, 2, 6, 7, 8, 130
LAST_STATUSES = "8 want of memory, 130 an interrupt"

Main = Callable[[Sequence[str] | None], int]


class Ending(Exception):
    """A command ends with this status, and says why."""

    def __init__(self, status: int, why: str) -> None:
        super().__init__(why)
        self.status = status


class Words(argparse.ArgumentParser):
    """The words of a command; wrong ones end with status 1, since 2 is about a file."""

    def read(self, words: Sequence[str] | None) -> argparse.Namespace:
        """What the words say, in any order of files and options."""
        return self.parse_intermixed_args(words)

    def error(self, message: str) -> NoReturn:
        """Ends with the usage, and what is wrong."""
        self.exit(BAD_WORDS, f"{self.format_usage()}{self.prog}: {plain(message)}\n")


def count_of(word: str) -> int:
    """A whole number of at most nine digits, as a word of a command."""
    if not re.fullmatch("-?[0-9]{1,9}", word):
        raise argparse.ArgumentTypeError(f"`{word[:40]}` is no whole number of 1 to 9 digits")
    return int(word)


def coins_of(word: str) -> int:
    """How many coins a unit has: a whole number from 1 on."""
    coins = count_of(word)
    if coins < 1:
        raise argparse.ArgumentTypeError("a unit has 1 coin or more")
    return coins


def say(line: str) -> None:
    """Says a line on standard error, where there is one that takes it."""
    try:
        if sys.stderr:
            print(plain(line), file=sys.stderr)
    except OSError:
        pass


def ends(name: str) -> Callable[[Main], Main]:
    """Makes the function of a command of this name end as all commands do."""

    def ending(main: Main) -> Main:
        @functools.wraps(main)
        def ended(words: Sequence[str] | None = None) -> int:
            try:
                return main(words)
            except Ending as end:
                say(f"{name}: {end}")
                return end.status
            except MemoryError:
                say(f"{name}: want of memory")
                return NO_MEMORY
            except KeyboardInterrupt:
                return INTERRUPTED

        return ended

    return ending


@contextmanager
def reading(name: str) -> Iterator[None]:
    """Ends the command where a file of this name is at fault, or can't be read."""
    try:
        yield
    except BadJournal as fault:
        raise Ending(BAD_FILE, f"{name}: {fault}") from None
    except OSError as fault:
        raise Ending(UNREAD, f"{fault.filename or name}: {fault.strerror}") from None


@contextmanager
def writing(name: str) -> Iterator[None]:
    """Ends the command where a file of this name can't be written."""
    try:
        yield
    except OSError as fault:
        raise Ending(UNWRITTEN, f"{fault.filename or name}: {fault.strerror}") from None


def source(name: str) -> BinaryIO:
    """The file of this name, to be read in blocks; `-` is standard input."""
    return open(0 if name == "-" else name, "rb", buffering=0)


@contextmanager
def standard_output() -> Iterator[TextIO]:
    """Standard output; the command ends where it takes no more."""
    with writing("standard output"):
        if sys.stdout is None:
            raise OSError(errno.EBADF, os.strerror(errno.EBADF))
        try:
            yield sys.stdout
            sys.stdout.flush()
        except OSError:
            # Nothing more is written when the process ends.
            os.dup2(os.open(os.devnull, os.O_WRONLY), 1)
            raise
