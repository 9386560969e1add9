"""How the commands end: their statuses, and lines on standard error."""
from __future__ import annotations

import argparse
import json
import os
import sys
from typing import Any, Callable, NoReturn

from .faults import BadFile
from .spelling import spelled

WRITTEN, BAD_WORDS, REFUSED, SOME_ASIDE = 0, 1, 2, 3
UNREAD, UNWRITTEN, NO_MEMORY, INTERRUPTED = 6, 7, 8, 130


class Words(argparse.ArgumentParser):
    """The words of a command; wrong ones end with status 1, since 2 is about the files."""

    def error(self, message: str) -> NoReturn:
        self.exit(BAD_WORDS, f"{self.format_usage()}{self.prog}: {spelled(message)}\n")


class Unwritten(Exception):
    """A file, or standard output, could not be written."""

    def __init__(self, name: str, fault: OSError) -> None:
        super().__init__(f"{name}: {fault.strerror}")


def tell(name: str, line: str) -> None:
    """A line of a command on standard error, in characters that print."""
    print(f"{name}: {spelled(line)}", file=sys.stderr)


def write(value: Any) -> None:
    """Writes a file in JSON to standard output."""
    try:
        sys.stdout.write(json.dumps(value) + "\n")
        sys.stdout.flush()
    except OSError as fault:
        # Nothing more is written when the process ends.
        os.dup2(os.open(os.devnull, os.O_WRONLY), 1)
        raise Unwritten("standard output", fault) from None


def ended(name: str, work: Callable[[], int]) -> int:
    """The status of a command: that of its work, or of what kept it from being done."""
    try:
        return work()
    except BadFile as fault:
        tell(name, str(fault))
        return REFUSED
    except Unwritten as fault:
        tell(name, str(fault))
        return UNWRITTEN
    except OSError as fault:
        tell(name, f"{fault.filename}: {fault.strerror}")
        return UNREAD
    except ValueError as fault:
        tell(name, str(fault))
        return BAD_WORDS
    except MemoryError:
        tell(name, "want of memory: free some, and run it again")
        return NO_MEMORY
    except KeyboardInterrupt:
        tell(name, "interrupted")
        return INTERRUPTED
