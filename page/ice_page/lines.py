"""The lines of a journal, one in view at a time; logs are counted and not kept."""
from __future__ import annotations

import hashlib
from dataclasses import dataclass
from itertools import accumulate
from typing import BinaryIO, Callable, NoReturn

from .records import Misspelt, Record, log_lines, read_record

LINE_LIMIT = 8192
FILE_LIMIT = 134_217_728
BLOCK = 1 << 16
SHOWN = 60

# Of a log's lines `branch` alone has a b, and each other one has one e: a branch opens a side
# more, and each other line closes one. As signed bytes these are 1 and -1.
SIGNS = bytes.maketrans(b"be", b"\x01\xff")
NO_SIGNS = bytes(set(range(256)) - set(b"be"))


class BadJournal(Exception):
    """The file is no journal: the text names the line, and what is wrong with it."""


@dataclass
class Log:
    """What is counted of a log."""

    branches: int = 0
    leaves: int = 0
    dead: int = 0
    size: int = 0


class Lines:
    """Reads a stream of bytes line by line, with the next line in view.

    `copy` is given each block as it is read, so that another reader sees the same bytes.
    """

    def __init__(self, stream: BinaryIO, copy: Callable[[bytes], object] | None = None) -> None:
        self.stream, self.copy, self.hash = stream, copy, hashlib.sha256()
        self.block, self.start, self.next, self.size = b"", 0, 0, 0
        self.number, self.line, self.ended, self.taken = 0, "", False, 0
        self.runs = {leaf: log_lines(leaf) for leaf in ("leaf", "near", "tolled")}
        self.step()

    @property
    def word(self) -> str:
        """The first word of the line in view."""
        return self.line.partition(" ")[0]

    def bad(self, why: str, line: int | None = None) -> NoReturn:
        """Gives up on the file, at the line in view or another one."""
        raise BadJournal(f"line {line or self.number}: {why}")

    def fill(self) -> bool:
        """Reads a block more behind the line in view; False at the end of the file."""
        more = self.stream.read(BLOCK)
        self.block, self.start, self.next = (
            self.block[self.start :] + more,
            0,
            self.next - self.start,
        )
        self.size += len(more)
        if self.size > FILE_LIMIT:
            self.bad(f"the file is longer than {FILE_LIMIT:,} bytes")
        self.hash.update(more)
        if self.copy:
            self.copy(more)
        return bool(more)

    def step(self) -> None:
        """Brings the next line into view."""
        self.start, self.number = self.next, self.number + 1
        end = self.block.find(b"\n", self.start)
        while end < 0 and len(self.block) - self.start <= LINE_LIMIT and self.fill():
            end = self.block.find(b"\n", self.start)
        if (end if end >= 0 else len(self.block)) - self.start > LINE_LIMIT:
            self.bad(f"longer than {LINE_LIMIT:,} bytes")
        if end < 0 and self.start < len(self.block):
            self.bad("ends without a newline: the file is cut")
        self.ended, self.next = end < 0, end + 1 if end >= 0 else self.start
        self.line = self.block[self.start : max(end, self.start)].decode("latin-1")
        if not (self.line.isascii() and self.line.isprintable()):
            self.bad("a byte that stands in no journal")

    def due(self, *heads: str) -> NoReturn:
        """Gives up, since none of these records stands in view."""
        found = "the file ends" if self.ended else f"`{self.line[:SHOWN]}` stands"
        self.bad(f'{found} where {" or ".join(f"`{head}`" for head in heads)} is due')

    def take(self, *heads: str) -> Record:
        """The record in view, which has to be one of these."""
        if self.ended or self.word not in [head.partition(" ")[0] for head in heads]:
            self.due(*heads)
        try:
            record = read_record(self.line)
        except Misspelt:
            self.bad(f"`{self.line[:SHOWN]}` is no `{self.word}` record")
        if not any(record.head == head or record.head.startswith(f"{head} ") for head in heads):
            self.due(*heads)
        self.taken = self.number
        self.step()
        return record

    def require(self, holds: bool, why: str) -> None:
        """Gives up at the record that was taken last, unless this holds."""
        if not holds:
            self.bad(why, self.taken)

    def log(self, leaf: str) -> Log:
        """Counts the log that begins at the line in view, up to the line that ends it."""
        log, sides = Log(), 1
        while sides:
            run = self.runs[leaf].match(self.block, self.start)
            piece = self.block[self.start : run.end()] if run else b""
            if not piece:
                self.due(leaf, "branch", "dead")
            steps = memoryview(piece.translate(SIGNS, NO_SIGNS)).cast("b")
            left = list(accumulate(steps, initial=sides))
            count = left.index(0) if 0 in left else len(steps)
            if count < len(steps):
                piece = b"".join(piece.splitlines(keepends=True)[:count])
            sides = left[count]
            self.count(log, piece, count)
            self.next = self.start + len(piece)
            self.step()
        return log

    def count(self, log: Log, piece: bytes, lines: int) -> None:
        """Adds whole lines of a log, the first of them in view, and passes all but the last."""
        branches, dead = piece.count(b"branch"), piece.count(b"dead")
        log.branches, log.dead, log.size = (
            log.branches + branches,
            log.dead + dead,
            log.size + len(piece),
        )
        log.leaves += lines - branches - dead
        self.number += lines - 1
