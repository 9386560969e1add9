"""The command `ice-without`: its words, and the status that it ends with."""
from __future__ import annotations

import argparse
import json
import os
import sys
import tempfile
from pathlib import Path

from ice_page.journal import Journal

from .compared import told
from .folder import read_journal
from .judge import answer, said
from .stop import DONE, REFUSED, UNWRITTEN, Stop, Words, plain, unwritten
from .tools import PROGRAM, run, signals_heard, whole
from .without import Json, market_of, rounds_left

NAME, MUCH = "ice-without", 10
ABOUT = """\
Makes a market of a journal's last bounds without one of its bidders, such as one that didn't pay,
and says what that would change for each other one, before anything is decided: it runs and checks
the session that closes at these bounds, with all bidders and without that one.

    desk/ice-without market.journal NAME -o without.json"""
STATUSES = (
    "status: 0 done, 1 the words are wrong, 2 a file is refused or there is no such bidder, 3 the "
    "checker says no, 6 a file could not be read, 7 one could not be written; others are those of "
    "ice run"
)


def words() -> Words:
    """The words that are understood."""
    parser = Words(
        prog=NAME,
        epilog=STATUSES,
        allow_abbrev=False,
        description=ABOUT,
        formatter_class=argparse.RawDescriptionHelpFormatter,
    )
    parser.add_argument("journal", metavar="JOURNAL", help="a session's journal")
    parser.add_argument("bidder", metavar="NAME", help="the bidder that is left out")
    parser.add_argument("-o", dest="market", metavar="FILE", help="where the market goes")
    parser.add_argument(
        "--rounds",
        metavar="N",
        type=int,
        help="the rounds of that market, if not those that the session has left: none where it "
        "has closed",
    )
    parser.add_argument(
        "--much",
        metavar="PERCENT",
        type=int,
        default=MUCH,
        help=f"warn where a payment differs by more than so many in a hundred, if not {MUCH}",
    )
    parser.add_argument("--program", metavar="FILE", help="the program to run instead of ./ice")
    return parser


def number_of(journal: Journal, name: str) -> int:
    """The number of the bidder that is left out; Stop where that can't be."""
    names = [bidder.name for bidder in journal.bidders]
    if name not in names:
        raise Stop(REFUSED, f"no bidder is named {name}")
    if len(names) == 1:
        raise Stop(REFUSED, f"{name} is the only bidder, and a market has at least one")
    return names.index(name)


def closed(program: Path, market: Json) -> Journal:
    """The session of a market that closes at once, after the checker's yes."""
    with tempfile.TemporaryDirectory(prefix="ice-without-") as room:
        file, path = Path(room, "market.json"), Path(room, "market.journal")
        file.write_text(json.dumps(market))
        ran = run(program, "run", file, into=path)
        if ran.status != DONE:
            raise Stop(ran.status, said(ran, "run"))
        journal = read_journal(path)
        answer(program, path, journal)
        return journal


def compare(options: argparse.Namespace) -> list[str]:
    """Writes the market where a file is named for it, and gives the lines to tell."""
    journal = read_journal(whole(options.journal))
    number = number_of(journal, options.bidder)
    program = whole(options.program) if options.program else PROGRAM
    is_closed = journal.end.word == "closed"
    before = journal if is_closed else closed(program, market_of(journal, None, 0))
    now = closed(program, market_of(journal, number, 0))
    lines = list(told(before, now, options.bidder, options.much))
    if not is_closed:
        lines.insert(0, "the session hasn't closed: before is what its last bounds would give now")
    if options.market:
        rounds = rounds_left(journal) if options.rounds is None else options.rounds
        text = json.dumps(market_of(journal, number, rounds), indent=1)
        Path(options.market).write_text(f"{text}\n")
        lines.append(f"the market without {options.bidder}: {options.market}, with rounds {rounds}")
    return lines


def main(arguments: list[str] | None = None) -> int:
    """Makes the market, says what it changes, and answers the status."""
    parser = words()
    options = parser.parse_args(arguments)
    if options.rounds is not None and not 0 <= options.rounds <= 20:
        parser.error("--rounds wants a whole number from 0 to 20")
    if options.market and os.path.exists(options.market):
        parser.error("FILE is there already: name a new one")
    try:
        with signals_heard():
            lines = compare(options)
    except Stop as stop:
        for line in str(stop).splitlines():
            print(f"{NAME}: {plain(line)}", file=sys.stderr)
        return stop.status
    except OSError as fault:
        print(f"{NAME}: {plain(str(unwritten(fault, options.market)))}", file=sys.stderr)
        return UNWRITTEN
    try:
        print("\n".join(map(plain, lines)), flush=True)
    except OSError as fault:
        print(f"{NAME}: standard output: {fault.strerror}", file=sys.stderr)
        return UNWRITTEN
    return DONE
