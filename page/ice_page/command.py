"""The command: its words, and the status that it ends with."""
from __future__ import annotations

import argparse
import os
from pathlib import Path
from typing import Sequence

from .checker import PROGRAM, Answer, Checker
from .fair_file import read_fair
from .gap import ask_gap
from .journal import BadJournal, Journal, Lines
from .names import name_all, read_names
from .page import whole_page
from .statement import read_file
from .terminal import BAD_WORDS, DONE, LAST_STATUSES, Ending, Words, coins_of, count_of, ends
from .terminal import reading, say, source, standard_output, writing
from .view import View

NAME = "ice-page"
STATUSES = (
    "status: 0 the page is written, 1 the words are wrong, 2 the file is no journal, has no such "
    "bidder or round, or has no fair prices of it (standard error says what, and at which line "
    f"where it is one), 6 a file could not be read, 7 the page could not be written, {LAST_STATUSES}"
)


def words() -> Words:
    """The words that are understood."""
    parser = Words(
        prog=NAME,
        epilog=STATUSES,
        allow_abbrev=False,
        description="Writes a journal, or a bidder's statement, as one page of HTML to look at.",
    )
    parser.add_argument(
        "journal",
        metavar="JOURNAL",
        help="a journal of kind assign, regret or session, or a statement; - is standard input",
    )
    parser.add_argument(
        "-o", dest="page", metavar="PAGE", help="where the page goes, if not to standard output"
    )
    parser.add_argument(
        "--checked",
        metavar="ANSWER",
        help='what ice check printed, such as "yes 0 0/1", or ice audit of a statement',
    )
    parser.add_argument(
        "--check",
        action="store_true",
        help="run ice check on the same bytes, or ice audit of a statement, and show its answer",
    )
    parser.add_argument(
        "--program", metavar="FILE", help="with --check: the program to ask instead of ./ice"
    )
    parser.add_argument("--title", metavar="T", help="the title, if not the name of the file")
    parser.add_argument(
        "--unit", metavar="U", default="", help='the unit of the values, such as "k€"'
    )
    parser.add_argument("--bidder", metavar="NAME", help="a page for this bidder alone")
    parser.add_argument(
        "--unit-coins",
        metavar="COINS",
        type=coins_of,
        help="with --bidder, or of a statement: its payment in whole coins too; how many coins a unit "
        "of the values has, 100 where these are euros and 1 where they are cents",
    )
    parser.add_argument("--date", metavar="D", default="", help="the date of the page, as you like")
    parser.add_argument(
        "--made-by",
        metavar="P",
        default="",
        help='which program ran the session, such as "$(./ice --version)"',
    )
    parser.add_argument(
        "--digest",
        metavar="D",
        default="",
        help='the digest that is published, such as "$(page/ice-digest JOURNAL)"',
    )
    parser.add_argument(
        "--round",
        metavar="N",
        type=count_of,
        help="with --bidder: its sets in this round, if not in the one that is awaited",
    )
    parser.add_argument(
        "--fair",
        metavar="FILE",
        help="fair prices of a closed session, which ice fair JOURNAL writes, to show beside the "
        "payments",
    )
    parser.add_argument(
        "--gap",
        metavar="TEXT",
        help="what ice gap JOURNAL wrote, where the branches are spent; --check asks it too",
    )
    parser.add_argument(
        "--names",
        metavar="FILE",
        help="full names of bidders and goods: a table in CSV with the heads name and full name",
    )
    return parser


def is_same(one: str, other: str) -> bool:
    """Whether two names are of one file."""
    return (
        one != "-"
        and os.path.exists(one)
        and os.path.exists(other)
        and os.path.samefile(one, other)
    )


def read(options: argparse.Namespace) -> tuple[Journal, Answer]:
    """The journal, and what the checker says of the same bytes where it is asked."""
    with source(options.journal) as stream:
        if not options.check:
            answer = Answer((options.checked or "").strip())
            return read_file(Lines(stream), options.bidder), answer
        checker = Checker(options.program or PROGRAM)
        try:
            journal = read_file(Lines(stream, checker.feed), options.bidder)
            answer = checker.answer()
        except BaseException:
            checker.stop()
            raise
    if checker.said_last and not answer.fits(journal):
        say(checker.said_last)
    return journal, answer


def gap_of(options: argparse.Namespace, journal: Journal, answer: Answer) -> Answer:
    """What `ice gap` says where a search was spent, as it was told, or as it is asked."""
    if options.gap is not None:
        return Answer(options.gap.strip())
    is_file = options.journal != "-" and os.path.isfile(options.journal)
    if options.check and is_file and journal.end.word == "spent" and answer.fits(journal):
        return ask_gap(journal, options.journal, options.program)
    return Answer()


def number_of(journal: Journal, name: str | None) -> int | None:
    """The number of the bidder of this name; BadJournal where there is none.

    A statement has one bidder, and its page is for that one.
    """
    if name is None:
        return 0 if journal.of_statement else None
    names = [bidder.name for bidder in journal.bidders]
    if name not in names:
        raise BadJournal(f"no bidder is named {name}")
    return names.index(name)


def write(page: str, name: str | None) -> None:
    """Writes the page to a file or to standard output."""
    data = page.encode(errors="replace")
    if name is None:
        with standard_output() as output:
            output.buffer.write(data)
            return
    with writing(name):
        Path(name).write_bytes(data)


def meant(arguments: Sequence[str] | None) -> argparse.Namespace:
    """What the words say, which has to go together."""
    parser = words()
    options = parser.read(arguments)
    if options.check and options.checked is not None:
        parser.error("--check asks the checker, and --checked tells its answer: give one of them")
    if options.check and options.gap is not None:
        parser.error("--check asks the gap, and --gap tells it: give one of them")
    if options.program and not options.check:
        parser.error("--program goes with --check")
    if options.round is not None and options.bidder is None:
        parser.error("--round goes with --bidder")
    if options.page and is_same(options.journal, options.page):
        parser.error("the page would overwrite the journal")
    if options.page and options.fair and is_same(options.fair, options.page):
        parser.error("the page would overwrite the fair prices")
    if options.page and options.names and is_same(options.names, options.page):
        parser.error("the page would overwrite the names")
    return options


@ends(NAME)
def main(arguments: Sequence[str] | None = None) -> int:
    """Makes a page, and answers the status."""
    options = meant(arguments)
    name = "standard input" if options.journal == "-" else os.path.basename(options.journal)
    fair = None
    with reading(options.journal):
        journal, answer = read(options)
        bidder = number_of(journal, options.bidder)
        gap = gap_of(options, journal, answer)
    if options.unit_coins is not None and bidder is None:
        raise Ending(BAD_WORDS, "--unit-coins goes with --bidder: ice-table has all payments in coins")
    if options.fair is not None:
        with reading(options.fair):
            fair = read_fair(options.fair, journal)
    if options.names is not None:
        with reading(options.names):
            name_all(journal, read_names(options.names))
    view = View(
        journal,
        answer,
        title=options.title or name,
        source=name,
        unit=options.unit,
        unit_coins=options.unit_coins,
        bidder=bidder,
        round=options.round,
        date=options.date,
        program=options.made_by,
        digest=options.digest,
        fair=fair,
        gap=gap,
    )
    with reading(options.journal):
        page = whole_page(view)
    write(page, options.page)
    return DONE
