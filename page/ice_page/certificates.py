"""What the proofs of a journal take: branch steps, leaves and bytes of each search."""
from __future__ import annotations

from fractions import Fraction

from . import numbers
from .journal import Journal
from .lines import Log
from .markup import box, cell, column_head, drawing, key, row, row_head, table, tag, text
from .view import View

BAR = 60
MANY, FEW = 40, 8


def searches(view: View) -> list[tuple[str, Log]]:
    """Each search by its settlement and name, with its log."""
    found = []
    for settlement in view.journal.settlements:
        number = f"{settlement.number} " if view.journal.kind == "session" else ""
        for group in settlement.groups:
            if group.log:
                spent = ", spent" if group.bound is not None else ""
                found.append((f"{number}{group.seeks}{spent}", group.log))
    return found


def search_row(name: str, log: Log, scale: Fraction) -> str:
    """The row of a search."""
    counts = (log.branches, log.leaves, log.dead, log.size)
    bar = box(0, 1, max(Fraction(1), log.size * scale), 7, "bar")
    return row(
        row_head(text(name), "name"),
        *(cell(numbers.unless_zero(n), "right") for n in counts),
        cell(drawing(BAR + 4, 10, bar, f"{numbers.whole(log.size)} bytes"), "wider"),
    )


def derived_words(journal: Journal) -> str:
    """How many derived goods were stated, of how many, and in which settlements."""
    counts = [(each.number, len(each.derived)) for each in journal.settlements if each.derived]
    stated = ", ".join(f"{count} (settlement {number})" for number, count in counts)
    where = f": {stated}" if stated and journal.kind == "session" else ""
    total, most = sum(count for _, count in counts), journal.settings.derived
    return f"{numbers.plural(total, 'derived good')} of {numbers.whole(most)}{where}"


def certificates_section(view: View) -> str:
    """The section; nothing where there are no logs, and for one bidder alone."""
    logs = [] if view.alone else searches(view)
    if not logs:
        return ""
    journal = view.journal
    scale = Fraction(BAR, max(1, *(log.size for _, log in logs)))
    rows = [search_row(name, log, scale) for name, log in logs]
    head = row(
        column_head("search", "name"),
        *(column_head(name, "right") for name in ("branches", "leaves", "dead", "bytes")),
        column_head("", "wider"),
    )
    columns = 3 if len(rows) > MANY else 2 if len(rows) > FEW else 1
    height = -(-len(rows) // columns)
    parts = [rows[start : start + height] for start in range(0, len(rows), height)]
    captions = ["Searches and their logs", "More searches", "The last searches"]
    proofs = ", ".join(
        f"{each.rows[0]} + {each.rows[1]} (settlement {each.number})"
        for each in journal.settlements
        if each.prices
    )
    steps, size = (sum(counts) for counts in zip(*((log.branches, log.size) for _, log in logs)))
    steps += sum(log.branches for each in journal.settlements for log in each.derived)
    tables = "".join(table(caption, head, part) for caption, part in zip(captions, parts))
    return (
        tag("h2", "Certificates")
        + key(
            "a log proves that nothing beats what its search found, or by how much at most",
            f'{numbers.plural(steps, "branch step")} of '
            f"{numbers.whole(journal.settings.branches)}",
            f"{numbers.whole(size)} of the journal’s {numbers.whole(journal.size)} bytes",
            "dead: a side that some bidder can’t serve",
            f"rows that prove the prices: {proofs}" if proofs else "",
            derived_words(journal) if journal.settings.derived else "",
        )
        + tag("div", tables, class_="pair")
    )
