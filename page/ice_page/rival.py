"""Who could still change the result: a settlement's rival beside its final trade, bidder by bidder.

The regret is what the rival's sets are worth more than the final ones, with lower values on what
the final sets hold and upper values on the rest. That is a sum over bidders, so each has a part of
it. What a bidder holds in one of the two and not in the other may be known up to an interval: how
wide these are together is what it has open, and by so much at most its part may shrink when it
tells more.
"""
from __future__ import annotations

from typing import NamedTuple

from . import numbers, words
from .journal import Bounds, Journal, Settlement

OTHERS = "Another trade may then be the rival."


class Part(NamedTuple):
    """A bidder's part of the regret, what it has open, and whether its two sets differ."""

    gain: int
    open: int
    differs: bool


class Change(NamedTuple):
    """What a round did to the regret: each accepted bid's part of it, and that of other trades.

    `bids` has the number of each bidder whose bid was accepted, with the change of its part between
    the final trade and the rival of before. `others` is what comes of another final trade or rival.
    """

    bids: dict[int, int]
    others: int

    @property
    def total(self) -> int:
        """The change of the regret."""
        return sum(self.bids.values()) + self.others


def part(final: str, rival: str, bounds: Bounds) -> Part:
    """A bidder's part, by its set in the final trade, in that of the rival, and its bounds."""
    gain = wide = 0
    for held, wanted, low, high in zip(final, rival, *bounds):
        if held != wanted:
            gain += -low if held == "1" else high
            wide += high - low
    return Part(gain, wide, final != rival)


def parts(settlement: Settlement, bounds: list[Bounds] | None = None) -> list[Part]:
    """The part of each bidder, at the settlement's bounds or at others; none without a rival."""
    final, rival = settlement.group("final"), settlement.group("rival")
    if final is None or rival is None:
        return []
    return list(map(part, final.sets, rival.sets, bounds or settlement.bounds))


def fits(settlement: Settlement) -> bool:
    """Whether the parts sum to the regret that is stated, where there is one."""
    return settlement.regret in (None, sum(each.gain for each in parts(settlement)))


def accepted(settlement: Settlement) -> list[int]:
    """The numbers of the bidders of which a bid was accepted behind a settlement, in order."""
    found = {bid.bidder for bid in settlement.bids if bid.verdict == "accepted"}
    return sorted(number for number in found if number is not None)


def change(before: Settlement, after: Settlement) -> Change | None:
    """What the round between two settlements did to the regret, where both have stated theirs."""
    if before.regret is None or after.regret is None:
        return None
    old, new = parts(before), parts(before, after.bounds)
    bids = {number: new[number].gain - old[number].gain for number in accepted(before)}
    return Change(bids, after.regret - before.regret - sum(bids.values()))


def changes(journal: Journal) -> list[Change]:
    """What each round did to the regret, up to the first that has no settlement behind it."""
    found = []
    for before, after in zip(journal.settlements, journal.settlements[1:]):
        held = change(before, after)
        if held is None:
            break
        found.append(held)
    return found


def wanted(open_: list[int], most: int) -> list[int]:
    """The fewest bidders without whom at most so much is open, those with the most open first."""
    ranks = sorted(range(len(open_)), key=lambda number: -open_[number])
    left, found = sum(open_), []
    for number in ranks:
        if left <= most:
            break
        left -= open_[number]
        found.append(number)
    return found


def told(journal: Journal) -> str:
    """Who needs to be asked, in plain text; nothing where the last settlement has no rival."""
    settlement = journal.last
    found = [each.open for each in parts(settlement)]
    if not found or settlement.regret is None or not fits(settlement):
        return ""
    if not settlement.regret:
        return "Nobody: whatever the values are inside the bounds, no trade is worth more."
    names = [bidder.name for bidder in journal.bidders]
    if journal.end.word == "closed":
        return f"{open_words(found, names)} The session has closed all the same."
    most = journal.settings.close_regret if journal.kind == "session" else 0
    asked = wanted(found, most)
    left = sum(found) - sum(found[number] for number in asked)
    return f"{open_words(found, names)} {asking_words([names[n] for n in asked], left, most)}"


def open_words(found: list[int], names: list[str]) -> str:
    """How much lies open between the two trades, and with whom most of it."""
    total, most = sum(found), max(found)
    first = names[found.index(most)]
    share = "all of it" if most == total else f"{numbers.whole(most)} of it"
    return (
        f"Between the final trade and its rival {numbers.whole(total)} lies open, {share} with "
        f"{first}."
    )


def asking_words(asked: list[str], left: int, most: int) -> str:
    """Whom to ask, and what may be left then."""
    if not asked:
        return ""
    who, once = f"So {words.listed(asked)} need to be asked", "they have told their values"
    if len(asked) == 1:
        who, once = f"So {asked[0]} alone needs to be asked", "it has told its values"
    if not left:
        return f"{who}: once {once} of what differs, it is known which is worth more. {OTHERS}"
    closes = f" (the session closes at {numbers.whole(most)})" if most else ""
    return (
        f"{who}: once {once} of what differs, whichever of the two is the final one, the other can "
        f"be worth {numbers.whole(left)} more at most{closes}. {OTHERS}"
    )
