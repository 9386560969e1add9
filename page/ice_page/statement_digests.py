"""Salted digests of the statements of a session, for whoever checked its journal to publish.

A list of them has always as many lines as a session may have bidders, in the order of the digests,
so it tells neither names nor how many bid. A line that is no bidder's is the digest of a salt alone.
"""
from __future__ import annotations

import os
import re
import secrets
from typing import BinaryIO, NamedTuple, Sequence

from .digest import DIFFERS, NAME, bytes_of
from .journal import MOST_BIDDERS, BadJournal
from .lines import FILE_LIMIT
from .statements import Salted, Watched, write_statements
from .terminal import DONE, LAST_STATUSES, Words, ends, reading, standard_output, writing

STATUSES = (
    "status: 0 done, 1 the words are wrong, 2 a file is no journal that closed or waits for bids, "
    "no statement, no list or no salt, 3 the statement is not in the list, 6 a file could not be "
    f"read, 7 a file or standard output could not be written, {LAST_STATUSES}"
)
ALL, ONE = "--statements", "--statement"
NOBODY = "*"  # no name has this character
SALT = re.compile(rb"salt (\*|[A-Za-z0-9_.-]{1,32}) ([0-9a-f]{64})\n")
ENTRY = re.compile(rb"statement (\d{1,2}) ([0-9a-f]{64})\n")
HEAD = re.compile(rb"statement ([A-Za-z0-9_.-]{1,32})\n")
SETTLEMENT = re.compile(rb"^settle (\d{1,2})$", re.MULTILINE)
SMALL = 1 << 16  # longer than any list of salts or digests


class Salts(NamedTuple):
    """The salt of each name, and those of lines that are nobody's."""

    named: dict[str, bytes]
    nobodies: list[bytes]


def read_salts(name: str) -> Salts:
    """The salts of a file, one in each line; BadJournal where it has others."""
    found = Salts({}, [])
    for number, line in enumerate(bytes_of(name, SMALL).splitlines(keepends=True), 1):
        entry = SALT.fullmatch(line)
        if entry is None:
            raise BadJournal(f"line {number} is no salt")
        whose, salt = entry[1].decode(), bytes.fromhex(entry[2].decode())
        if whose == NOBODY:
            found.nobodies.append(salt)
        elif whose in found.named:
            raise BadJournal(f"line {number} has a second salt of one name")
        else:
            found.named[whose] = salt
    every = [*found.named.values(), *found.nobodies]
    if len(set(every)) < len(every):
        raise BadJournal("one salt stands in it twice")
    return found


def written(salts: Salts) -> str:
    """The salts as a file."""
    named = [*salts.named.items(), *((NOBODY, salt) for salt in salts.nobodies)]
    return "".join(f"salt {name} {salt.hex()}\n" for name, salt in named)


def names_of(stream: BinaryIO) -> list[str]:
    """The names of a journal's bidders; BadJournal where it has no statements."""
    found: list[str] = []
    write_statements(Watched(stream), found.append)
    return found


def make_salts(name: str, bidders: list[str]) -> None:
    """New salts for these bidders and for nobodies, in a file that only its owner may read."""
    drawn = [secrets.token_bytes(32) for _ in range(MOST_BIDDERS)]
    salts = Salts(dict(zip(bidders, drawn)), drawn[len(bidders) :])
    with writing(name):
        file = os.open(name, os.O_WRONLY | os.O_CREAT | os.O_EXCL, 0o600)
        with open(file, "w", encoding="ascii") as target:
            target.write(written(salts))


def digests_of(journal: str, salts: Salts) -> list[str]:
    """A line for each bidder of a journal and for each nobody, in the order of the digests.

    BadJournal where the salts aren't those of the journal's bidders.
    """
    hashes: dict[str, Salted] = {}
    strangers: list[str] = []

    def make(name: str) -> Salted | None:
        if name in salts.named:
            return hashes.setdefault(name, Salted(salts.named[name]))
        strangers.append(name)
        return None

    with reading(journal), open(journal, "rb", buffering=0) as stream:
        done = write_statements(Watched(stream), make)
    if strangers:
        raise BadJournal("it has no salt of a bidder of the journal")
    if len(hashes) + len(salts.nobodies) != MOST_BIDDERS or len(hashes) != len(salts.named):
        raise BadJournal(f"its salts aren't those of the journal's bidders, {MOST_BIDDERS} in all")
    found = [each.hexdigest() for each in hashes.values()]
    found += [Salted(salt).hexdigest() for salt in salts.nobodies]
    return [f"statement {done.settlement} {digest}" for digest in sorted(found)]


def all_statements(journal: str, salts: str) -> tuple[list[str], int]:
    """What to publish of a journal; its file of salts is made where it isn't there."""
    if not os.path.lexists(salts):
        with reading(journal), open(journal, "rb", buffering=0) as stream:
            bidders = names_of(stream)
        make_salts(salts, bidders)
    with reading(salts):
        return digests_of(journal, read_salts(salts)), DONE


def digest_of_file(name: str, salts: Salts) -> tuple[str, str]:
    """The last settlement of a statement, and its digest with the salt of its name."""
    data = bytes_of(name, FILE_LIMIT)
    head, settlements = HEAD.match(data), SETTLEMENT.findall(data)
    if head is None or not settlements:
        raise BadJournal("no statement")
    whose = head[1].decode()
    if whose not in salts.named:
        raise BadJournal("no salt of its name was given")
    digest = Salted(salts.named[whose])
    digest.update(data)
    return settlements[-1].decode(), digest.hexdigest()


def read_list(name: str) -> set[tuple[str, str]]:
    """The settlements and digests of a list, one in each line; BadJournal where a line is none."""
    lines = bytes_of(name, SMALL).splitlines(keepends=True)
    entries = [ENTRY.fullmatch(line) for line in lines]
    if not entries or None in entries:
        raise BadJournal("not each line is a digest of a statement, or none is there")
    return {(each[1].decode(), each[2].decode()) for each in entries if each}


def one_statement(statement: str, salt: str, published: str) -> tuple[list[str], int]:
    """Whether a statement is in a list that was published."""
    with reading(published):
        found = read_list(published)
    with reading(salt):
        salts = read_salts(salt)
    with reading(statement):
        settlement, digest = digest_of_file(statement, salts)
    same = (settlement, digest) in found
    return [f"{'same' if same else 'other'} statement {settlement}"], DONE if same else DIFFERS


def words() -> Words:
    """The words that are understood."""
    parser = Words(
        prog=NAME,
        epilog=STATUSES,
        allow_abbrev=False,
        description="Digests of statements: whoever checked a journal publishes them, and each "
        "bidder finds its own.",
    )
    both = parser.add_mutually_exclusive_group(required=True)
    both.add_argument(
        ALL,
        nargs=2,
        metavar=("JOURNAL", "SALTS"),
        help="writes the list to publish; SALTS has a salt for each bidder, and is made where it "
        "isn't there",
    )
    both.add_argument(
        ONE,
        nargs=3,
        metavar=("FILE", "SALT", "LIST"),
        help="says whether a statement is in the published list; SALT has the bidder's line of "
        "the salts",
    )
    return parser


@ends(NAME)
def main(arguments: Sequence[str] | None = None) -> int:
    """Writes the digests of statements, or looks for one, and answers the status."""
    options = words().parse_args(arguments)
    if options.statements:
        lines, status = all_statements(*options.statements)
    else:
        lines, status = one_statement(*options.statement)
    with standard_output() as output:
        output.write("".join(f"{line}\n" for line in lines))
    return status
