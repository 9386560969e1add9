"""Full names of bidders and goods, from a table, in the place of those that a market has."""
from __future__ import annotations

import csv
from collections import Counter
from pathlib import Path

from .journal import BadJournal, Journal, Judged
from .plain import isolated

HEADS = ["name", "full name"]
FILE_LIMIT, MOST_LETTERS = 65_536, 60
SHOWN = 40


class BadNames(BadJournal):
    """The table is refused: the text names the line, and what is wrong with it."""


def read_names(name: str) -> dict[str, str]:
    """The full name of each name in a table in CSV; BadNames where it is none."""
    with Path(name).open("rb") as stream:
        data = stream.read(FILE_LIMIT + 1)
    if len(data) > FILE_LIMIT:
        raise BadNames(f"longer than {FILE_LIMIT:,} bytes")
    try:
        lines = data.decode("utf-8-sig").splitlines()
    except UnicodeDecodeError:
        raise BadNames("no UTF-8: save the table as CSV in UTF-8") from None
    first = lines[0] if lines else ""
    cut = next((each for each in ";\t" if each in first), ",")
    found: dict[str, str] = {}
    table = csv.reader(lines, delimiter=cut, strict=True)
    try:
        rows = [[cell.strip() for cell in row] for row in table]
    except csv.Error as fault:
        raise BadNames(f"no table in CSV: {fault}") from None
    if not rows or [cell.lower() for cell in rows[0][:2]] != HEADS:
        raise BadNames("line 1: the heads are `name` and `full name`")
    for number, cells in enumerate(rows[1:], 2):
        if any(cells):
            take(found, cells, number)
    return found


def take(found: dict[str, str], cells: list[str], number: int) -> None:
    """Takes a line of the table."""
    short, full = (*cells, "", "")[:2]
    if not short or not full:
        raise BadNames(f"line {number}: a name and a full name are due")
    if not (short.isprintable() and full.isprintable()) or len(full) > MOST_LETTERS:
        why = f"a full name has at most {MOST_LETTERS} letters, and no control characters"
        raise BadNames(f"line {number}: {why}")
    if short in found or isolated(full) in found.values():
        twice = short if short in found else full
        raise BadNames(f"line {number}: `{twice[:SHOWN]}` stands twice")
    found[short] = isolated(full)


def name_all(journal: Journal, names: dict[str, str]) -> None:
    """Gives the bidders and the goods of a journal their full names.

    BadNames where nobody and nothing has one of the names; but a statement has one bidder alone.
    """
    held = {bidder.name for bidder in journal.bidders} | {good.name for good in journal.goods}
    strange = [name for name in names if name not in held]
    if strange and not journal.of_statement:
        raise BadNames(f"no bidder and no good is named `{strange[0][:SHOWN]}`")
    for bidder in journal.bidders:
        bidder.name = names.get(bidder.name, bidder.name)
    journal.goods = [good._replace(name=names.get(good.name, good.name)) for good in journal.goods]
    for settlement in journal.settlements:
        bids: Counter[Judged] = Counter()
        for bid, times in settlement.bids.items():
            who = bid.who if bid.bidder is None else journal.bidders[bid.bidder].name
            bids[bid._replace(who=who)] += times
        settlement.bids = bids
        for group in settlement.groups:
            word, _, name = group.seeks.partition(" ")
            group.seeks = f"{word} {names.get(name, name)}".strip()
