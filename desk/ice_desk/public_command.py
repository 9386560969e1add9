"""The command `ice-public`: its words, and the status that it ends with."""
from __future__ import annotations

import sys
from pathlib import Path

from .folder import read_journal
from .public import DIGEST, public_page
from .stop import DONE, REFUSED, UNWRITTEN, Stop, Words, plain, unread, unwritten
from .tools import whole
from .turn import published

NAME = "ice-public"
STATUSES = (
    "status: 0 the page is written, 1 the words are wrong, 2 the file is no journal of a session, "
    "or the list none of digests, 6 a file could not be read, 7 the page could not be written"
)


def words() -> Words:
    """The words that are understood."""
    parser = Words(
        prog=NAME,
        epilog=STATUSES,
        allow_abbrev=False,
        description="Writes a page of a session for everybody, with no bids and no names of "
        "bidders: goods, prices and regret by round, what was traded in all, digests.",
    )
    parser.add_argument("journal", metavar="JOURNAL", help="a session's journal")
    parser.add_argument("list", metavar="LIST", nargs="?", help="the digests that were published")
    parser.add_argument("-o", dest="page", metavar="PAGE", help="if not standard output")
    parser.add_argument("--checked", metavar="ANSWER", default="", help="what ice check printed")
    for name in ("title", "unit", "date", "made-by"):
        parser.add_argument(f"--{name}", metavar=name[0].upper(), help="as of page/ice-page")
    return parser


def digests_of(name: str | None) -> list[str]:
    """The digests of a list; Stop where it has another line."""
    if name is None:
        return []
    try:
        with open(name, "rb"):
            lines = published(whole(name))
    except OSError as fault:
        raise unread(fault, name) from None
    for number, line in enumerate(lines, 1):
        if not DIGEST.fullmatch(line):
            raise Stop(REFUSED, f"{name}: line {number} is no digest")
    return lines


def write(text: str, page: Path | None) -> None:
    """Writes the page to a file or to standard output."""
    if page:
        page.write_bytes(text.encode(errors="replace"))
        return
    sys.stdout.buffer.write(text.encode(errors="replace"))
    sys.stdout.buffer.flush()


def main(arguments: list[str] | None = None) -> int:
    """Makes the page, and answers the status."""
    parser = words()
    options = parser.parse_intermixed_args(arguments)
    read = [Path(each) for each in (options.journal, options.list) if each]
    page = Path(options.page) if options.page else None
    if page and page.exists() and any(each.exists() and page.samefile(each) for each in read):
        parser.error("the page would overwrite a file that is read")
    shown = {name: value for name, value in vars(options).items() if isinstance(value, str)}
    shown["made-by"] = options.made_by or ""
    try:
        journal, digests = read_journal(whole(options.journal)), digests_of(options.list)
    except Stop as stop:
        print(f"{NAME}: {plain(str(stop))}", file=sys.stderr)
        return stop.status
    try:
        write(public_page(journal, digests, shown, options.checked), page)
    except OSError as fault:
        print(f"{NAME}: {plain(str(unwritten(fault, 'standard output')))}", file=sys.stderr)
        return UNWRITTEN
    return DONE
