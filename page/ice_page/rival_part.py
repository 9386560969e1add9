"""The section on who could still change the result, on a page for all."""
from __future__ import annotations

from . import numbers
from .course import SHOWN_NARROW, older
from .journal import Settlement
from .markup import cell, column_head, key, row, row_head, table, tag, text
from .rival import Change, Part, changes, fits, parts, told
from .view import View


def rival_section(view: View) -> str:
    """The section; nothing for one bidder, since it tells of the others, or without a rival."""
    if view.alone:
        return ""
    held = [each for each in view.journal.settlements if each.regret and parts(each)]
    if not held:
        return ""
    says = told(view.journal)
    odds = [str(each.number) for each in held if not fits(each)]
    warning = f"The parts don’t sum to the regret that settlement {', '.join(odds)} states."
    return (
        tag("h2", "Who could still change the result")
        + (tag("p", tag("strong", warning, class_="bad")) if odds else "")
        + (tag("p", text(says), class_="advice") if says else "")
        + parts_table(view, held)
        + changes_table(view)
    )


def parts_table(view: View, held: list[Settlement]) -> str:
    """Each bidder's part of the regret, and what it has open, settlement by settlement."""
    caption, count = "Each bidder’s part of the regret", len(held)
    both = list(map(parts, held))
    over = [
        column_head(f"settlement {each.number}", f"right{older(place, count)}", 2)
        for place, each in enumerate(held)
    ]
    under = [
        column_head(name, f"right{older(place, count)}")
        for place in range(count)
        for name in ("part", "open")
    ]
    head = row(column_head("", "name"), *over) + row(column_head("", "name"), *under)
    listed = [n for n in view.bidders if any(each[n].differs for each in both)]
    rows = [parts_row(view.journal.bidders[n].name, [each[n] for each in both]) for n in listed]
    sums = [Part(sum(p.gain for p in each), sum(p.open for p in each), True) for each in both]
    unit = f"in{view.with_unit}" if view.unit else ""
    others = len(view.bidders) - len(listed)
    return (
        tag("h3", caption)
        + table(caption, head, rows, parts_row("all: the regret", sums), class_="steps")
        + key(
            "part: by how much its set in the rival may be worth more than its set in the final "
            "trade, at most",
            "open: how far apart its bounds are on what it holds in one of the two alone; by so "
            "much its part can shrink",
            f"{numbers.plural(others, 'bidder')} with the same set in both" if others else "",
            unit,
            earlier("settlements", count),
        )
    )


def earlier(what: str, count: int) -> str:
    """Where earlier ones stand, on narrow screens that leave some out."""
    says = tag("span", f"earlier {what} stand on a wider screen", class_="narrow")
    return says if count > SHOWN_NARROW else ""


def parts_row(name: str, found: list[Part]) -> str:
    """The row of a bidder, or of all; empty where its sets are the same."""
    cells, count = [], len(found)
    for place, each in enumerate(found):
        shown = (numbers.signed(each.gain) or "0", numbers.whole(each.open))
        looks = ("", " strong" if each.open else " soft")
        cells += [
            cell(words if each.differs else "", f"right{look}{older(place, count)}")
            for words, look in zip(shown, looks)
        ]
    return row(row_head(text(name), "name"), *cells)


def changes_table(view: View) -> str:
    """By how much each accepted bid changed the regret, round by round."""
    found = changes(view.journal)
    listed = [n for n in view.bidders if any(n in each.bids for each in found)]
    if not listed:
        return ""
    caption, count = "What each accepted bid did to the regret", len(found)
    heads = [
        column_head(f"round {number}", f"right{older(number - 1, count)}")
        for number in range(1, count + 1)
    ]
    head = row(column_head("", "name"), *heads)
    rows = [bid_row(view.journal.bidders[n].name, n, found) for n in listed]
    foot = changes_row("other trades", [each.others for each in found])
    foot += changes_row("all: the regret", [each.total for each in found])
    return (
        tag("h3", caption)
        + table(caption, head, rows, foot, class_="steps")
        + key(
            "the change of its part between the final trade and the rival of before",
            "other trades: what comes of another final trade or rival behind the round",
            earlier("rounds", count),
        )
    )


def bid_row(name: str, number: int, found: list[Change]) -> str:
    """The row of a bidder; empty where none of its bids was accepted."""
    return changes_row(name, [each.bids.get(number) for each in found])


def changes_row(name: str, found: list[int | None]) -> str:
    """A row of changes."""
    words = ["" if each is None else numbers.signed(each) or "0" for each in found]
    cells = [
        cell(each, f"right{older(place, len(found))}") for place, each in enumerate(words)
    ]
    return row(row_head(text(name), "name"), *cells)
