"""The command that tells a bidder its sets at the prices: its words, and how it ends."""
from __future__ import annotations

from typing import Sequence

from .command import number_of, write
from .journal import Lines
from .statement import read_file
from .terminal import DONE, LAST_STATUSES, Words, count_of, ends, reading, source
from .told import told

NAME = "ice-nets"
STATUSES = (
    "status: 0 it is written, 1 the words are wrong, 2 the file is no journal, or has no such "
    f"bidder or round, 6 it could not be read, 7 standard output failed, {LAST_STATUSES}"
)


def words() -> Words:
    """The words that are understood."""
    parser = Words(
        prog=NAME,
        epilog=STATUSES,
        allow_abbrev=False,
        description="Tells a bidder its sets at the prices, when its next bid counts, its bids.",
    )
    parser.add_argument(
        "journal", metavar="JOURNAL", help="a session, or a statement; - is standard input"
    )
    parser.add_argument("bidder", metavar="NAME", help="the bidder")
    parser.add_argument(
        "--round", metavar="N", type=count_of, help="the round, if not the one that is awaited"
    )
    return parser


@ends(NAME)
def main(arguments: Sequence[str] | None = None) -> int:
    """Writes what a bidder needs to bid, and answers the status."""
    options = words().read(arguments)
    with reading(options.journal):
        with source(options.journal) as stream:
            journal = read_file(Lines(stream), options.bidder)
        bidder = number_of(journal, options.bidder)
        assert bidder is not None, "a name is given"
        text = told(journal, bidder, options.round)
    write(text, None)
    return DONE
