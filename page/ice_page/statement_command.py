"""The command that writes a bidder's statement, also of a session that waits for bids."""
from __future__ import annotations

from typing import Sequence

from .journal import BadJournal
from .statements import Watched, write_statements
from .terminal import DONE, LAST_STATUSES, Words, ends, reading, source, standard_output

NAME, SHOWN = "ice-statement", 40
STATUSES = (
    "status: 0 it is written, 1 the words are wrong, 2 the file is no journal that closed or waits "
    f"for bids, or has no such bidder, 6 it could not be read, 7 standard output failed, {LAST_STATUSES}"
)


class Kept:
    """The bytes of a statement."""

    def __init__(self) -> None:
        self.data = bytearray()

    def update(self, data: bytes, /) -> None:
        """Takes some more bytes."""
        self.data += data


def words() -> Words:
    """The words that are understood."""
    parser = Words(
        prog=NAME,
        epilog=STATUSES,
        allow_abbrev=False,
        description="Writes what one bidder may see of a session, as a statement. Of one that "
        "waits for bids it has all lines so far, and ends with `end open`. The journal is retold "
        "and not judged: ice check judges it.",
    )
    parser.add_argument("journal", metavar="JOURNAL", help="a session; - is standard input")
    parser.add_argument("bidder", metavar="NAME", help="the bidder")
    return parser


def statement_of(journal: str, name: str) -> bytes:
    """The statement of a bidder; BadJournal where the journal has none."""
    kept: list[Kept] = []

    def make(each: str) -> Kept | None:
        if each != name:
            return None
        kept.append(Kept())
        return kept[-1]

    with source(journal) as stream:
        write_statements(Watched(stream), make)
    if not kept:
        raise BadJournal(f"no bidder is named `{name[:SHOWN]}`")
    return bytes(kept[0].data)


@ends(NAME)
def main(arguments: Sequence[str] | None = None) -> int:
    """Writes a statement, and answers the status."""
    options = words().read(arguments)
    with reading(options.journal):
        data = statement_of(options.journal, options.bidder)
    with standard_output() as out:
        out.buffer.write(data)
    return DONE
