"""Why a command stops, and the words and statuses that all commands of the desk share."""
from __future__ import annotations

import argparse
from typing import NoReturn

DONE, BAD_WORDS, REFUSED, NO, UNREAD, UNWRITTEN, OPEN = 0, 1, 2, 3, 6, 7, 9
INTERRUPTED = 128


class Stop(Exception):
    """A command ends here with this status: the text says why."""

    def __init__(self, status: int, text: str) -> None:
        super().__init__(text)
        self.status = status


class Words(argparse.ArgumentParser):
    """The words of a command; wrong ones end with status 1, since 2 is about a file."""

    def error(self, message: str) -> NoReturn:
        self.exit(BAD_WORDS, f"{self.format_usage()}{self.prog}: {plain(message)}\n")


def plain(text: str) -> str:
    """Text on one line, with each character that isn't printable spelled out."""
    return "".join(each if each.isprintable() else ascii(each)[1:-1] for each in text)


def unread(fault: OSError, name: object) -> Stop:
    """The stop at a file that can't be read."""
    return Stop(UNREAD, f"{fault.filename or name}: {fault.strerror}")


def unwritten(fault: OSError, name: object) -> Stop:
    """The stop at a file that can't be written."""
    return Stop(UNWRITTEN, f"{fault.filename or name}: {fault.strerror}")
