"""Sessions: settlement after settlement, up to the one that closes."""
from __future__ import annotations

from .bounds import Bounds
from .grammar import FORMS, Record
from .groups import Group, Journal, read_group
from .payments import read_payments
from .prices import Offer, read_offer
from .records import Rule
from .verdicts import ACCEPTED, Judge

VERDICTS = [form for form in FORMS if form.startswith("verdict")]


def read_best(journal: Journal, bounds: list[Bounds]) -> tuple[Group, int]:
    """The best assignment at lower values, and its regret."""
    records = journal.records
    final = read_group(journal, "final", [each.lower for each in bounds])
    perturbed = [each.against(inside) for each, inside in zip(bounds, final.sets)]
    rival = read_group(journal, "rival", perturbed)
    (regret,) = records.take("regret").fields
    records.test(regret == rival.value - final.value, Rule.REGRET)
    return final, regret


def read_session(journal: Journal) -> str:
    """All settlements; the answer where every test passes."""
    records, settings = journal.records, journal.exchange.settings
    bounds = journal.exchange.bounds()
    number = 0
    while True:
        records.test(records.take("settle").fields == [number], Rule.ORDER)
        final, regret = read_best(journal, bounds)
        if regret <= settings.close_regret or number == settings.rounds:
            return f"yes {regret} {read_close(journal, bounds, final)}"
        weights = [each.weighted(settings.weight) for each in bounds]
        provisional = read_group(journal, "provisional", weights)
        offer = read_offer(journal, weights, provisional.sets)
        read_stop(journal, number)
        bounds = read_round(journal, bounds, offer)
        number += 1


def read_close(journal: Journal, bounds: list[Bounds], final: Group) -> str:
    """The best assignment without each bidder, and the payments; the surplus, as it is spelled."""
    lower = [each.lower for each in bounds]
    bidders = range(len(bounds))
    without = [read_group(journal, "without", lower, bidder).value for bidder in bidders]
    surplus = read_payments(journal, bounds, final, without)
    journal.records.take_end("closed")
    return f"{surplus.numerator}/{surplus.denominator}"


def read_stop(journal: Journal, number: int) -> None:
    """The stop that may stand in the place of a round; a session that stops isn't closed."""
    records = journal.records
    if records.next_is("end", "refused", "unread"):
        record = records.take("end", "refused", "unread")
        is_stop = record.fields[0] == ("open" if record.form == "end" else number + 2)
        records.fail(Rule.CLOSED if is_stop else Rule.ORDER)


def read_round(journal: Journal, bounds: list[Bounds], offer: Offer) -> list[Bounds]:
    """The submissions of a round, each with the verdict due; the bounds that they leave."""
    records = journal.records
    accepted: dict[int, Bounds] = {}
    while records.next_is("submit"):
        name, lower, upper = records.take("submit").fields
        names = [bidder.name for bidder in journal.exchange.bidders]
        bidder = names.index(name) if name in names else None
        new = Bounds(lower, upper)
        stated = records.take(*VERDICTS)
        due = verdict_due(journal, bounds, offer, accepted, bidder, new)
        records.test(stated == due, Rule.VERDICT)
        if bidder is not None and due == ACCEPTED:
            accepted[bidder] = new
    return [accepted.get(bidder, old) for bidder, old in enumerate(bounds)]


def verdict_due(
    journal: Journal,
    bounds: list[Bounds],
    offer: Offer,
    accepted: dict[int, Bounds],
    bidder: int | None,
    new: Bounds,
) -> Record:
    """The verdict on a submission of a bidder, or of None where its name is nobody's."""
    if bidder is None:
        return Record("verdict 45", [])
    if bidder in accepted:
        return Record("verdict 44", [])
    tree, improve = journal.exchange.bidders[bidder].tree, journal.exchange.settings.improve
    judge = Judge(tree, offer.prices, offer.sets[bidder], improve, bounds[bidder], new)
    return judge.verdict()
