"""The command `sheet`: its words, and the status that it ends with."""
from __future__ import annotations

import argparse
import os
from typing import Any

from . import ending, files, jsontext
from .ending import REFUSED, WRITTEN, Words, write
from .faults import BadFile, BadTable
from .limits import front_of
from .lots import notes_of_lots
from .market import read_market
from .matching import faults_of_round, notes_of_round
from .names import slips
from .reading import rows_of
from .settings import settings_of
from .table import Reader, Table, faults_of_market

NAME = "sheet"
UNMATCHED = "the packages have to stand in the order of the market; --market FILE matches them"
ABOUT = """\
Bids from a table in CSV as spreadsheets write it.

    examples/sheet.py TABLE.csv --settings FILE                flat bids in JSON, for `ice xor`
    examples/sheet.py TABLE.csv --settings FILE --trees FILE   an exchange, with bidders with trees
    examples/sheet.py TABLE.csv --market FILE                  a round file for this market
    examples/sheet.py TABLE.csv                                the same with packages in its order

The first line has the heads `bidder`, `bid`, `lo`, `hi` and then the names of the goods; `=`
behind a name says that the good is exact. Each other line is what a bidder owns, where its `bid`
is `own`, or a package: `xor`, of which the bidder takes at most one, or `or`, of which it takes
any; or `each`, any number of units of one good up to the one that stands there, with lo and hi for
one unit. Below a good stand the units, those that are sold as numbers below 0. What a bidder wants for
what it sells is a value below 0 too: who asks 500 to 600 writes lo -600, hi -500. A sale with a
value above 0, and a purchase with one below 0, is refused unless its `bid` is `xor!`, `or!` or `each!`."""
STATUSES = (
    "status: 0 the file is written, 1 the words are wrong, 2 a file is refused (standard error has "
    "each line and column), 6 a file could not be read, 7 standard output failed, 8 want of memory, "
    "130 interrupted"
)


def words() -> Words:
    """The words that are understood."""
    parser = Words(
        prog=NAME,
        epilog=STATUSES,
        allow_abbrev=False,
        description=ABOUT,
        formatter_class=argparse.RawDescriptionHelpFormatter,
    )
    parser.add_argument("table", metavar="TABLE.csv", help="the table")
    parser.add_argument("text", metavar="SETTINGS", nargs="?", help="the settings as text in JSON")
    parser.add_argument("--settings", metavar="FILE", help="a file in JSON with the settings")
    parser.add_argument("--market", metavar="FILE", help="the market: an exchange, or flat bids")
    parser.add_argument("--trees", metavar="FILE", help="bidders with trees, in JSON")
    return parser


def tell(line: str) -> None:
    """A line on standard error."""
    ending.tell(NAME, line)


def read_settings(options: argparse.Namespace) -> dict[str, int]:
    """The settings, from their file or their text."""
    if options.settings is not None:
        return settings_of(jsontext.read(options.settings), options.settings)
    try:
        value = jsontext.parse(options.text.encode(errors="surrogateescape"))
        return settings_of(value, "settings")
    except BadFile as fault:
        hint = "; a file is given by --settings FILE" if os.path.isfile(options.text) else ""
        raise BadFile(f"SETTINGS: {fault}{hint}") from None


def count(number: int, one: str) -> str:
    """A count of things, such as `3 goods`."""
    return f"{number} {one}" + "s" * (number != 1)


def tell_summary(table: Table, others: list[str]) -> None:
    """What the table has beside bidders of these names, and names that look like slips."""
    for line in slips([bidder.name for bidder in table.bidders] + others, "bidders"):
        tell(line)
    for line in slips([good.name for good in table.goods], "goods"):
        tell(line)
    packages = sum(len(bidder.packages) for bidder in table.bidders)
    parts = [count(len(table.bidders), "bidder"), count(len(table.goods), "good")]
    behind = f", and {count(len(others), 'bidder')} with trees" if others else ""
    tell(", ".join([*parts, count(packages, "package")]) + behind)


def made_of(options: argparse.Namespace) -> dict[str, Any]:
    """The file that is asked for; BadTable or BadFile where something is wrong."""
    rows, has_title = rows_of(front_of(options.table))
    if has_title:
        tell(f"the heads stand in line {rows[0].line}: what is above them is left out")
    table = Reader(rows).read()
    if options.settings is None and options.text is None:
        return round_of(options, table)
    if faults := faults_of_market(table):
        raise BadTable(faults)
    settings = read_settings(options)
    for line in notes_of_lots(table):
        tell(line)
    if not options.trees:
        tell_summary(table, [])
        return files.flat(table, settings)
    others = files.read_others(options.trees, table)
    tell_summary(table, [other["name"] for other in others])
    return files.exchange(table, settings, others)


def round_of(options: argparse.Namespace, table: Table) -> dict[str, Any]:
    """A round file of the table."""
    if not options.market:
        tell_summary(table, [])
        tell(UNMATCHED)
        return files.round_in_order(table)
    market = read_market(options.market)
    if faults := faults_of_round(table, market):
        raise BadTable(faults)
    tell_summary(table, [])
    for line in notes_of_round(table, market):
        tell(line)
    return files.round_of(table, market)


def sheet(options: argparse.Namespace) -> int:
    """Makes a file of a table and writes it; the status."""
    try:
        made = made_of(options)
    except BadTable as refused:
        for line in refused.told():
            tell(f"{options.table}: {line}")
        return REFUSED
    write(made)
    return WRITTEN


def main(arguments: list[str] | None = None) -> int:
    """Makes a file of a table, and answers the status."""
    parser = words()
    options = parser.parse_intermixed_args(arguments)
    settings = [word for word in (options.settings, options.text) if word is not None]
    if len(settings) > 1 or (settings and options.market):
        parser.error("give one of SETTINGS, --settings FILE and --market FILE")
    if options.trees and not settings:
        parser.error("--trees goes with --settings: a round has bids of the table alone")
    return ending.ended(NAME, lambda: sheet(options))
