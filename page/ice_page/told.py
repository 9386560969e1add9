"""What one bidder needs to bid, as plain text: the same as on its page."""
from __future__ import annotations

import textwrap

from . import words
from .advice import values
from .journal import Journal
from .nets import Table
from .own import Round, round_of, round_shown, standing

WIDE = 96
PLAIN = str.maketrans({"−": "-", "≈": "~", "–": "-", "’": "'", "“": '"', "”": '"'})


def wrapped(paragraph: str, indent: str = "") -> str:
    """A paragraph in lines."""
    return textwrap.fill(
        paragraph,
        WIDE,
        initial_indent=indent,
        subsequent_indent=indent,
        break_on_hyphens=False,
        break_long_words=False,
    )


def table_lines(shown: Round, nets: Table) -> list[str]:
    """The table of nets, in columns."""
    heads = ("costs", "leaves at least", "at most")
    amounts = [
        tuple(map(words.amount, (found.cost, found.least, found.most))) for found in nets.rows
    ]
    widths = [max(map(len, column)) for column in zip(heads, *amounts)]
    lines = ["  " + "  ".join(map(str.rjust, heads, widths)) + "  set"]
    for found, cells in zip(nets.rows, amounts):
        name = words.trade(found.units, shown.goods)
        stands = f"{name} ({words.places(found.bits)}): {standing(found)}"
        mark = "*" if found.is_provisional else " "
        lines.append(f'{mark} {"  ".join(map(str.rjust, cells, widths))}  {stands}')
    return lines


def nets_lines(journal: Journal, shown: Round | None) -> list[str]:
    """The sets at the prices of a round, and when the next bid counts."""
    if shown is None:
        kind = "The session has closed" if journal.end.word == "closed" else "The journal ends"
        return [f"{kind}: no bids are awaited."]
    nets = shown.table()
    lines = [f"Round {shown.number}: your sets at the prices", "", *table_lines(shown, nets)]
    lines += ["", wrapped(shown.advice.extent(nets))]
    for sentence in shown.advice.sentences(nets):
        lines += ["", wrapped(sentence)]
    return lines


def bids_lines(journal: Journal, bidder: int) -> list[str]:
    """All bids of a bidder, with their numbers and verdicts in words."""
    lines = []
    for settlement in journal.settlements:
        held = round_of(journal, settlement, bidder)
        if held is None:
            continue
        for bid in settlement.kept:
            stated = ", ".join(each for each, _ in values(bid, held.offer.bounds)) or "all 0"
            lines += ["", wrapped(f"Round {held.number}: {stated}")]
            lines.append(wrapped(held.advice.verdict(bid), "  "))
    return ["", "Your bids, by node", *lines] if lines else []


def told(journal: Journal, bidder: int, number: int | None) -> str:
    """All of it."""
    shown = round_shown(journal, bidder, number)
    title = [f"For {journal.bidders[bidder].name}", ""]
    lines = [*title, *nets_lines(journal, shown), *bids_lines(journal, bidder)]
    return "\n".join(lines).translate(PLAIN) + "\n"
