"""What a round came to, in lines of plain text: what changed, what to publish, what comes next."""
from __future__ import annotations

from fractions import Fraction
from typing import Iterator

from ice_page import numbers, words
from ice_page.course import REASONS
from ice_page.journal import Journal, Judged, Settlement
from ice_page.rival import accepted, told as asked

from .folder import Folder
from .turn import Held

MOST_REFUSED = 40


def told(held: Held, folder: Folder, command: str) -> list[str]:
    """All lines of a round that was held."""
    return [*held.told, *outcome(held), *for_all(held, folder), *behind(held, folder, command)]


def trial(held: Held) -> list[str]:
    """The lines of a trial: the verdicts, and nothing that only the next round may know."""
    settlement = last_round(held.journal)
    lines = [*held.told, *bids(settlement)] if settlement else [*held.told, "no bids came"]
    return [*lines, "a trial: nothing is written, and more bids may come into the same round"]


def last_round(journal: Journal) -> Settlement | None:
    """The settlement before the bids that came last."""
    return journal.settlements[-2] if len(journal.settlements) > 1 else None


# What changed


def outcome(held: Held) -> Iterator[str]:
    """The state, what was bid, and what that changed."""
    journal, before, now = held.journal, last_round(held.journal), held.journal.last
    if journal.end.word == "closed":
        yield f"closed after {numbers.plural(held.number, 'round')}"
    else:
        yield f"open: {words.awaited(journal)}"
    if before:
        yield f"round {held.number}:"
        yield from indented(bids(before))
        yield from indented(silent(journal, before))
        yield from indented(moved(journal, before, now))
    else:
        yield f"  regret {numbers.whole(now.regret or 0)}"
    says = asked(journal)
    if says:
        yield f"for you alone: {says}"


def indented(lines: Iterator[str]) -> Iterator[str]:
    """Lines that stand below another one."""
    return (f"  {line}" for line in lines)


def bids(settlement: Settlement) -> Iterator[str]:
    """How many bids came, and each that was refused, with the reason."""
    taken = sum(n for bid, n in settlement.bids.items() if bid.verdict == "accepted")
    count = settlement.bids.total()
    yield f"{numbers.plural(count, 'bid')}, {numbers.whole(taken)} accepted"
    refused = [(bid, n) for bid, n in settlement.bids.items() if bid.verdict != "accepted"]
    for bid, times in refused[:MOST_REFUSED]:
        yield refusal(bid, times, bid.bidder in accepted(settlement))
    if len(refused) > MOST_REFUSED:
        yield f"and {len(refused) - MOST_REFUSED} more that were refused"


def refusal(bid: Judged, times: int, is_accepted: bool) -> str:
    """A bid that was refused, in words."""
    at = "" if bid.node is None else f" at node {bid.node}"
    often = f", {numbers.whole(times)} times" if times > 1 else ""
    other = "; another bid of it is accepted" if is_accepted else ""
    return f"refused: {bid.who}: {bid.verdict} {REASONS[bid.verdict][0]}{at}{often}{other}"


def silent(journal: Journal, settlement: Settlement) -> Iterator[str]:
    """Who bid nothing, and keeps its bounds."""
    heard = {bid.bidder for bid in settlement.bids}
    names = [each.name for number, each in enumerate(journal.bidders) if number not in heard]
    if names:
        yield f"no bid came of {words.listed(names)}: the bounds stay"


def moved(journal: Journal, before: Settlement, now: Settlement) -> Iterator[str]:
    """What the round changed: regret, prices and provisional sets."""
    yield f"regret {numbers.whole(before.regret or 0)} before, {numbers.whole(now.regret or 0)} now"
    if now.prices is None or before.prices is None:
        return
    pairs = list(zip(journal.goods, before.prices, now.prices))
    for good, old, new in pairs:
        if old != new:
            yield f"price of {good.name} {words.amount(old)} before, {words.amount(new)} now"
    others = zip(journal.bidders, resettled(before, now))
    names = [bidder.name for bidder, is_new in others if is_new]
    if names:
        yield f"another provisional set: {words.listed(names)}"
    if before.regret == now.regret and before.prices == now.prices:
        yield "nothing changed: ask those whose intervals are wide, or close with this regret"


def resettled(before: Settlement, now: Settlement) -> list[bool]:
    """Whose provisional set is another one now."""
    old, new = before.group("provisional"), now.group("provisional")
    return [one != other for one, other in zip(old.sets, new.sets)] if old and new else []


# What to publish, to send, and to do next


def for_all(held: Held, folder: Folder) -> Iterator[str]:
    """What to publish."""
    journal, now = held.journal, held.journal.last
    yield "to publish:"
    yield f"  regret {numbers.whole(now.regret or 0)}"
    for good, price in zip(journal.goods, now.prices or []):
        yield f"  price of {good.name} {words.amount(price)}"
    if journal.end.word == "closed":
        yield f"  cut {words.amount(journal.cut)}"
        yield f"  surplus {words.amount(journal.surplus)}"
    yield f"  digest: {held.digest}"
    yield f"  all of this as a page, with no bids: {folder.public}"


def behind(held: Held, folder: Folder, command: str) -> Iterator[str]:
    """What to send, what to keep, and what comes next."""
    if held.journal.end.word == "closed":
        yield "to send to each bidder: NAME.statement and NAME.html"
        yield f"for you: {folder.page}, {folder.tables}/, {folder.journal}"
        yield from payments(held.journal)
        return
    yield f"to send to each bidder: NAME-{held.number}.statement and NAME-{held.number}.html"
    yield f"for you: {folder.page}, {folder.journal}"
    following = held.number + 1
    yield f"next: bids of round {following} into bids-{following}/, each as TIME-NAME.json; then"
    yield f"  {command}"


def payments(journal: Journal) -> Iterator[str]:
    """What each bidder pays or receives."""
    yield "payments:"
    for bidder, paid in zip(journal.bidders, journal.payments):
        verb, amount = ("receives", -paid.payment) if paid.payment < 0 else ("pays", paid.payment)
        yield f"  {bidder.name} {verb} {words.amount(Fraction(amount))}"
