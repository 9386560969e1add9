"""A page of a session for everybody, with no bids: goods, prices, regret, trades in all, digests.

It has what is published, as docs/formats.md lists it, what is traded of each good in all once the
session has closed, and the digests. It names no bidder, so it stays the same whatever bids led to
these numbers.
"""
from __future__ import annotations

import re

from ice_page import numbers, words
from ice_page.checker import Answer
from ice_page.course import price_tables, regret_table
from ice_page.journal import Journal
from ice_page.markup import cell, column_head, exact, foreign, key, row, row_head, table, tag, text
from ice_page.page import STYLES
from ice_page.small_lines import lines_part
from ice_page.view import View

DIGEST = re.compile(r"(front|whole) (-|\d{1,6}) ([1-9]\d{0,11}) ([0-9a-f]{64})( salted)?")
MOST_DIGESTS = 100


class Public(View):
    """A journal as it is shown to everybody: as to one bidder, but with nobody's own."""

    @property
    def alone(self) -> bool:
        """The values of trades aren't published."""
        return True


def public_page(journal: Journal, digests: list[str], shown: dict[str, str], answer: str) -> str:
    """The page as text. `shown` may have `title`, `unit`, `date` and `made-by`."""
    view = Public(
        journal,
        Answer(answer),
        title=shown.get("title") or "A market in rounds",
        source="",
        unit=shown.get("unit", ""),
        date=shown.get("date", ""),
        program=shown.get("made-by", ""),
    )
    sections = (head_section(view), goods_section(view), course(view), digests_section(digests))
    policy = "default-src 'none'; style-src 'unsafe-inline'"
    head = (
        '<meta charset="utf-8"><meta name="viewport" content="width=device-width, initial-scale=1">'
        + f'<meta http-equiv="Content-Security-Policy" content="{policy}">'
        + tag("title", text(view.title))
        + tag("style", STYLES.read_text(encoding="utf-8"))
    )
    body = tag("main", "".join(tag("section", each) for each in sections if each))
    document = tag("html", tag("head", head) + tag("body", body + footer(view)), lang="en")
    return f"<!DOCTYPE html>\n{document}\n"


def head_section(view: Public) -> str:
    """The state of the session, its regret, and what the checker says."""
    journal = view.journal
    facts = [fact("state", *state(journal))]
    if journal.last.regret is not None:
        regret = numbers.whole(journal.last.regret) + view.with_unit
        facts.append(fact("could be missed, at most", regret, "the regret"))
    if journal.payments:
        cut = exact(journal.cut) + view.with_unit
        facts.append(fact("cut", cut, "comes off each Vickrey discount"))
        surplus = exact(journal.surplus) + view.with_unit
        facts.append(fact("surplus", surplus, "what all pay together"))
    facts.append(fact("checker’s answer", checked(view), "on the whole journal"))
    made = tag("p", foreign(view.made), class_="soft") if view.made else ""
    return tag("h1", foreign(view.title)) + made + tag("dl", "".join(facts), class_="facts")


def fact(name: str, value: str, note: str) -> str:
    """A number at a glance."""
    body = tag("dt", name) + tag("dd", value, class_="big") + tag("dd", note)
    return tag("div", body)


def state(journal: Journal) -> tuple[str, str]:
    """How the session stands, and why."""
    rounds = numbers.plural(journal.last.number, "round")
    if journal.end.word == "closed":
        return "Closed", f"after {rounds}"
    if words.awaited(journal):
        return "Open", words.awaited(journal)
    return "Stopped", f"after {rounds}, without a result"


def checked(view: Public) -> str:
    """What the checker says, in a word or two."""
    if not view.answer.text:
        return "not asked"
    if not view.answer.fits(view.journal):
        return "no"
    return "yes" if view.answer.says_yes(view.journal) else "right so far"


def goods_section(view: Public) -> str:
    """The goods, and how much of each is traded in all once the session has closed."""
    journal, closed = view.journal, view.journal.end.word == "closed"
    heads = [column_head("good", "name")] + [column_head("units traded", "right")] * closed
    traded = [sum(max(each[n], 0) for each in view.units) for n in range(len(journal.goods))]
    rows = [
        row(
            row_head(text(good.name) + " =" * good.exact, "name"),
            *[cell(numbers.whole(count), "right")] * closed,
        )
        for good, count in zip(journal.goods, traded)
    ]
    sign = "= all that is sold of this good is bought"
    return (
        tag("h2", "Goods")
        + table("Goods", row(*heads), rows)
        + key(sign if any(good.exact for good in journal.goods) else "")
    )


def course(view: Public) -> str:
    """Regret and prices by round."""
    both = [tag("div", part) for part in (regret_table(view), price_tables(view)) if part]
    if not both:
        return ""
    return tag("h2", "How it went") + tag("div", "".join(both), class_="pair") + lines_part(view)


def digests_section(digests: list[str]) -> str:
    """The digests that were published, line by line, and how they are compared."""
    held = [line for line in digests if DIGEST.fullmatch(line)][-MOST_DIGESTS:]
    if not held:
        return ""
    lines = "".join(tag("li", tag("code", line)) for line in held)
    says = (
        "Each line binds the journal up to its settlement: its third field counts bytes, and the "
        "fourth is the SHA-256 of so many bytes from the journal’s first on"
    )
    salt = ", behind the salt, which is published at the close" if "salted" in lines else ""
    return tag("h2", "Digests") + tag("p", says + salt + ".") + tag("ul", lines, class_="digests")


def footer(view: Public) -> str:
    """The rules of the session, which are published."""
    settings = view.journal.settings
    return tag(
        "footer",
        key(
            f"lower values weigh {settings.weight} %",
            f"cap {numbers.whole(settings.cap)}",
            f"closing regret {numbers.whole(settings.close_regret)}",
            f"improvement {numbers.whole(settings.improve)}",
            numbers.plural(settings.rounds, "round"),
            "of bids nothing is shown",
        ),
    )
