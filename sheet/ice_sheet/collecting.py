"""The command `collect`: single bids, joined into a round file."""
from __future__ import annotations

import argparse
import os
from pathlib import Path

from . import ending
from .collected import Collected
from .command import count
from .ending import SOME_ASIDE, WRITTEN, Unwritten, Words, write
from .market import read_market

NAME = "collect"
ABOUT = """\
Joins bids into a round file, in the order in which they are given, on standard output.

    examples/collect.py MARKET BID.. [--named] [--aside FILE]

A BID is a file in JSON with one bid, or a round file with several, or a folder, whose files with
names that end in .json are taken in the order of their names. Bids for which the program would
refuse the whole round are put aside, and so are those that it would judge by 45 or 46 whatever the
session: no bidder of the name, another number of values than its tree has nodes; and those with a
member that stands twice. With --named a file TIME-NAME.json, as 1405-choir.json, has bids of NAME
alone, and all else is put aside; without it files with bids of several bidders, and bidders with
several bids, are named. Standard error has a line for each bid put aside, of one file the first 20;
--aside FILE gets them as JSON."""
STATUSES = (
    "status: 0 all bids are taken, 1 the words are wrong, 2 the market is refused, 3 the round is "
    "written and some bids were put aside, 6 a file could not be read, 7 one could not be written, "
    "8 want of memory, 130 interrupted"
)


def tell(line: str) -> None:
    """A line on standard error."""
    ending.tell(NAME, line)


def words() -> Words:
    """The words that are understood."""
    parser = Words(
        prog=NAME,
        epilog=STATUSES,
        allow_abbrev=False,
        description=ABOUT,
        formatter_class=argparse.RawDescriptionHelpFormatter,
    )
    parser.add_argument("market", metavar="MARKET", help="the market: an exchange, or flat bids")
    parser.add_argument("bids", metavar="BID", nargs="+", help="a bid, a round file, or a folder")
    parser.add_argument("--named", action="store_true", help="a file has the bids of its name")
    parser.add_argument("--aside", metavar="FILE", help="where the bids put aside go, as JSON")
    return parser


def files_of(bids: list[str]) -> list[str]:
    """The files that are named, with those of folders in the order of their names."""
    files = []
    for name in bids:
        if not os.path.isdir(name):
            files.append(name)
            continue
        inside = sorted(it for it in os.listdir(os.fsencode(name)) if not it.startswith(b"."))
        for it in map(os.fsdecode, inside):
            if it.endswith(".json"):
                files.append(os.path.join(name, it))
            else:
                tell(f"{os.path.join(name, it)}: not read: its name doesn't end in .json")
    return files


def overwritten(aside: str, files: list[str]) -> str | None:
    """The file that would be lost if the bids put aside were written; None for none."""
    there = [file for file in files if os.path.exists(file)] if os.path.exists(aside) else []
    return next((file for file in there if os.path.samefile(aside, file)), None)


def put_aside(collected: Collected, file: str) -> None:
    """Writes the bids that were put aside."""
    text = ",\n ".join(collected.texts)
    try:
        Path(file).write_text(f'{{"aside": [\n {text}\n]}}\n', encoding="ascii")
    except OSError as fault:
        raise Unwritten(file, fault) from None


def collect(options: argparse.Namespace, files: list[str]) -> int:
    """Collects the bids of the files and writes them; the status."""
    collected = Collected(read_market(options.market), options.named)
    for file in files:
        collected.add_file(file)
    for line in collected.lines + collected.notes():
        tell(line)
    tell(f"{count(len(collected.taken), 'bid')} taken, {collected.count_aside} put aside")
    if options.aside:
        put_aside(collected, options.aside)
    write({"bids": collected.taken})
    return SOME_ASIDE if collected.count_aside else WRITTEN


def main(arguments: list[str] | None = None) -> int:
    """Makes a round file of bids, and answers the status."""
    parser = words()
    options = parser.parse_intermixed_args(arguments)

    def work() -> int:
        files = files_of(options.bids)
        if options.aside and (lost := overwritten(options.aside, [options.market, *files])):
            parser.error(f"--aside would overwrite {lost}, which is read")
        return collect(options, files)

    return ending.ended(NAME, work)
