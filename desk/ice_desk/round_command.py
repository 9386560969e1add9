"""The command `ice-round`: its words, and the status that it ends with."""
from __future__ import annotations

import argparse
import fcntl
import shlex
import sys
from contextlib import contextmanager
from pathlib import Path
from typing import IO, Iterator

from . import told
from .folder import Folder
from .progress import Progress
from .staged import Staged
from .stop import DONE, OPEN, REFUSED, UNWRITTEN, Stop, Words, plain, unread, unwritten
from .tools import PROGRAM, signals_heard, whole
from .turn import Held, Options, Turn

NAME = "ice-round"
SHOWN = ("title", "unit", "date", "made-by", "names")
STEPS, TRIED = 5, 4
ABOUT = """\
Holds a round: collects its bids, runs and checks the session, adds its digest to those that are
published, and makes the operator's page, the public one and that of each bidder. The first call
opens the session.

    desk/ice-round market.json

All files stand in the folder of MARKET, under the names of the recipe in docs/operating.md:
round-N.json, aside-N.json, market.journal, published, NAME-N.html; bids of round N are in bids-N/,
each as TIME-NAME.json. It stops at the first thing that is wrong, and then all is as it was."""
STATUSES = (
    "status: 0 the session has closed, 9 it is open and waits for bids; 1 the words are wrong, 2 a "
    "file is refused, 3 the checker says no, or a digest that was published doesn't hold, 6 a file "
    "could not be read, 7 one could not be written; others are those of ice run"
)


def words() -> Words:
    """The words that are understood."""
    parser = Words(
        prog=NAME,
        epilog=STATUSES,
        allow_abbrev=False,
        description=ABOUT,
        formatter_class=argparse.RawDescriptionHelpFormatter,
    )
    parser.add_argument("market", metavar="MARKET", help="the exchange, such as market.json")
    parser.add_argument(
        "--try", dest="trial", action="store_true", help="say the verdicts alone, and write nothing"
    )
    parser.add_argument(
        "--empty", action="store_true", help="hold the round that is awaited though no bid came"
    )
    parser.add_argument("--salt", metavar="FILE", help="the salt of the digests, 32 random bytes")
    parser.add_argument(
        "--coins", metavar="N", type=int, help="payments in coins too, of which a unit has so many"
    )
    parser.add_argument("--program", metavar="FILE", help="the program to run instead of ./ice")
    for name in SHOWN:
        parser.add_argument(f"--{name}", metavar=name[0].upper(), help="as of page/ice-page")
    return parser


def options_of(parsed: argparse.Namespace) -> Options:
    """What the words ask for."""
    given = [(name, getattr(parsed, name.replace("-", "_"))) for name in SHOWN]
    return Options(
        program=whole(parsed.program) if parsed.program else PROGRAM,
        salt=parsed.salt,
        coins=parsed.coins,
        is_empty=parsed.empty,
        is_trial=parsed.trial,
        shown=[f"--{name}={value}" for name, value in given if value is not None],
    )


@contextmanager
def alone(market: Path) -> Iterator[IO[bytes]]:
    """Holds the market's file, so that two calls never work on one session at once."""
    try:
        stream = market.open("rb")
    except OSError as fault:
        raise unread(fault, market) from None
    with stream:
        try:
            fcntl.flock(stream, fcntl.LOCK_EX | fcntl.LOCK_NB)
        except OSError:
            raise Stop(REFUSED, f"another {NAME} works on {market.name}") from None
        yield stream


def hold(folder: Folder, options: Options) -> Held:
    """Holds the round that is due."""
    folder.read_market()
    kept = [folder.market, *(whole(each) for each in (options.salt, named(options)) if each)]
    try:
        with (
            Progress(NAME, TRIED if options.is_trial else STEPS) as progress,
            Staged(folder.path, kept) as staged,
        ):
            return Turn(folder, staged, options, progress).hold()
    except OSError as fault:
        raise unwritten(fault, folder.path) from None


def named(options: Options) -> str | None:
    """The table of full names, where one is given."""
    found = (word.partition("=")[2] for word in options.shown if word.startswith("--names="))
    return next(found, None)


def main(arguments: list[str] | None = None) -> int:
    """Holds a round, and answers the status."""
    parser = words()
    parsed = parser.parse_args(arguments)
    if parsed.coins is not None and parsed.coins < 1:
        parser.error("--coins wants a whole number from 1 on")
    folder = Folder(parsed.market)
    given = sys.argv[1:] if arguments is None else arguments
    again = [word for word in given if word not in ("--try", "--empty")]
    command = shlex.join([sys.argv[0], *again])
    try:
        with signals_heard(), alone(folder.market):
            held = hold(folder, options_of(parsed))
        lines = told.trial(held) if parsed.trial else told.told(held, folder, command)
    except Stop as stop:
        for line in str(stop).splitlines():
            print(f"{NAME}: {line}", file=sys.stderr)
        print(f"{NAME}: stopped: all files are as they were", file=sys.stderr)
        return stop.status
    try:
        print("\n".join(map(plain, lines)), flush=True)
    except OSError as fault:
        print(f"{NAME}: standard output: {fault.strerror}", file=sys.stderr)
        return UNWRITTEN
    return DONE if held.journal.end.word == "closed" else OPEN
