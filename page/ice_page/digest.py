"""Digests of a session's journal, round by round, and whether a later journal keeps them.

A session that is taken on goes on where its journal had its last line: all that stood before stays
as it was. So a digest of these bytes binds whoever publishes it to all that was judged so far.
"""
from __future__ import annotations

import argparse
import hashlib
import re
from dataclasses import dataclass
from pathlib import Path
from typing import Iterable, Sequence

from .lines import FILE_LIMIT, BadJournal
from .terminal import DONE, LAST_STATUSES, Words, ends, reading, standard_output

NAME = "ice-digest"
DIFFERS = 3
STATUSES = (
    "status: 0 done, 1 the words are wrong, 2 a file is no journal, no list or no salt, 3 the "
    "journal has other bytes than the list says, 6 a file could not be read, 7 standard output "
    f"failed, {LAST_STATUSES}"
)
SALT_BYTES = 32
LIST_LIMIT = 1 << 20
FRONT, WHOLE, NO_SETTLEMENT = "front", "whole", "-"
HEAD = re.compile(rb"ice [123] (assign|regret|session)\n")
# Where a settlement begins, and where it awaits its round: behind the rows of `balance`.
PLACE = re.compile(rb"^(?:settle (\d{1,2})|balance \d+)\n", re.MULTILINE)
NO_ROW = re.compile(rb"^(?!row )", re.MULTILINE)
OPEN_ENDS = re.compile(rb"end open|refused \d+ \d+ [A-Za-z0-9_.-]+|unread \d+")
NUMBER = r"0|[1-9]\d?"
ENTRY = re.compile(
    rf"(?:(front) ({NUMBER})|(whole) (-|{NUMBER})) ([1-9]\d{{0,11}}) ([0-9a-f]{{64}})( salted)?"
)


@dataclass(frozen=True)
class Digest:
    """One line of a list: a digest of the first bytes of a journal.

    It is of a `front`, which a later journal begins with, or of the `whole` journal. The settlement
    is the last one that has begun there, or `-` where none has.
    """

    word: str
    settlement: str
    size: int
    digest: str
    is_salted: bool

    def __str__(self) -> str:
        salted = " salted" if self.is_salted else ""
        return f"{self.word} {self.settlement} {self.size} {self.digest}{salted}"


class Bound:
    """What the digests of a journal are of: its fronts, one for each round, and the whole.

    `sizes` says how many bytes each has, by its word and its settlement.
    """

    def __init__(self, journal: bytes, salt: bytes) -> None:
        if not HEAD.match(journal) or not journal.endswith(b"\n"):
            raise BadJournal("no journal: its head is another one, or its last line has no newline")
        self.journal, self.salt = memoryview(journal), salt
        self.sizes: dict[tuple[str, str], int] = {}
        self.made: dict[tuple[int, bool], str] = {}
        self.last = NO_SETTLEMENT
        self.find_fronts(journal)
        self.published = self.find_end(journal)

    def find_fronts(self, journal: bytes) -> None:
        """The fronts of all settlements that await, or awaited, a round."""
        begun = 0
        for place in PLACE.finditer(journal):
            if place[1] is None:
                behind = NO_ROW.search(journal, place.end())
                self.sizes.setdefault((FRONT, self.last), behind.start() if behind else 0)
            elif place[1].decode() != str(begun):
                raise BadJournal(f"no journal: `settle {begun}` is due where another one stands")
            else:
                self.last, begun = str(begun), begun + 1

    def find_end(self, journal: bytes) -> tuple[str, str]:
        """What is to be published of the journal as it is: its last front, or the whole."""
        start = journal.rfind(b"\n", 0, -1) + 1
        if OPEN_ENDS.fullmatch(journal, start, len(journal) - 1) is None:
            self.sizes[WHOLE, self.last] = len(journal)
            return WHOLE, self.last
        if self.sizes.get((FRONT, self.last)) != start:
            raise BadJournal("no journal: its last line stands where no round is awaited")
        return FRONT, self.last

    def digest(self, word: str, settlement: str, is_salted: bool) -> Digest | None:
        """The digest of a front or of the whole; None where the journal has no such part."""
        size = self.sizes.get((word, settlement))
        if size is None:
            return None
        if (size, is_salted) not in self.made:
            made = hashlib.sha256(self.salt if is_salted else b"")
            made.update(self.journal[:size])
            self.made[size, is_salted] = made.hexdigest()
        return Digest(word, settlement, size, self.made[size, is_salted], is_salted)

    def keeps(self, entry: Digest) -> bool:
        """Whether a digest is that of the journal's own front or whole."""
        return self.digest(entry.word, entry.settlement, entry.is_salted) == entry

    def without_line(self, published: Iterable[Digest]) -> list[str]:
        """The settlements whose front no line of a list is of."""
        named = {entry.settlement for entry in published if entry.word == FRONT}
        return [number for word, number in self.sizes if word == FRONT and number not in named]


def read_list(text: str) -> list[Digest]:
    """The digests of a list, one in each line; BadJournal where a line is none, or none is there."""
    found = []
    for number, line in enumerate(text.splitlines(), 1):
        entry = ENTRY.fullmatch(line)
        if entry is None:
            raise BadJournal(f"line {number} is no digest")
        front, awaited, whole, last, size, digest, salted = entry.groups()
        found.append(Digest(front or whole, awaited or last, int(size), digest, salted is not None))
    if not found:
        raise BadJournal("no digest is in it")
    return found


def words() -> Words:
    """The words that are understood."""
    parser = Words(
        prog=NAME,
        epilog=STATUSES,
        allow_abbrev=False,
        description="Writes the digest to publish of a session's journal; or, where a list of "
        "such digests is named too, says of each whether the journal keeps it, and which rounds "
        "have no line in the list. With `--statements JOURNAL SALTS` or `--statement FILE SALT "
        "LIST` as the first words it is about the statements of bidders.",
    )
    parser.add_argument("journal", metavar="JOURNAL", help="the journal of the session so far")
    parser.add_argument("list", metavar="LIST", nargs="?", help="the digests that were published")
    parser.add_argument(
        "--salt",
        metavar="FILE",
        help=f"{SALT_BYTES} random bytes, secret until the close, that are put before the journal",
    )
    return parser


def bytes_of(name: str, limit: int) -> bytes:
    """The bytes of a file; BadJournal where they are more than the limit, past which none is read."""
    with Path(name).open("rb") as stream:
        content = stream.read(limit + 1)
    if len(content) > limit:
        raise BadJournal(f"the file is longer than {limit:,} bytes")
    return content


def read_salt(name: str | None) -> bytes:
    """The bytes of the salt, none where no file is named; the command ends where they aren't 32."""
    if name is None:
        return b""
    with reading(name), Path(name).open("rb") as stream:
        salt = stream.read(SALT_BYTES + 1)
        if len(salt) != SALT_BYTES:
            raise BadJournal(f"a salt has {SALT_BYTES} bytes")
    return salt


def compared(bound: Bound, published: list[Digest]) -> tuple[list[str], int]:
    """A line for each digest and for each round without one, and the status."""
    if not bound.salt and any(entry.is_salted for entry in published):
        raise BadJournal("its digests have a salt, and --salt names none")
    kept = [bound.keeps(entry) for entry in published]
    lines = [
        f"{'same' if is_kept else 'other'} {entry.word} {entry.settlement}"
        for entry, is_kept in zip(published, kept)
    ]
    lines += [f"none {FRONT} {number}" for number in bound.without_line(published)]
    return lines, DONE if all(kept) else DIFFERS


def answer(options: argparse.Namespace) -> tuple[list[str], int]:
    """The lines to write, and the status."""
    salt = read_salt(options.salt)
    with reading(options.journal):
        bound = Bound(bytes_of(options.journal, FILE_LIMIT), salt)
    if options.list is None:
        return [str(bound.digest(*bound.published, bool(salt)))], DONE
    with reading(options.list):
        text = bytes_of(options.list, LIST_LIMIT).decode("ascii", "replace")
        return compared(bound, read_list(text))


@ends(NAME)
def main(arguments: Sequence[str] | None = None) -> int:
    """Writes a digest, or compares a list of them, and answers the status."""
    lines, status = answer(words().read(arguments))
    with standard_output() as output:
        output.write("".join(f"{line}\n" for line in lines))
    return status
