"""Judges a yes once more, in plain code: sums, feasibility and payments of the journal as the
pages' reader reads it, and for small markets the best assignments, by trying them all."""
from __future__ import annotations

import io
import sys
from collections.abc import Iterator, Sequence
from fractions import Fraction
from itertools import product
from math import prod

from harness.program import ROOT

sys.path.insert(0, str(ROOT / "page"))

from ice_page.checker import due  # noqa: E402
from ice_page.journal import Bidder, Group, Journal, Settlement, read_journal  # noqa: E402
from ice_page.lines import BadJournal, Lines  # noqa: E402

# So many combinations of sets are tried, and no more.
TRIED = 20_000

# The values of the nodes of a bidder.
Values = Sequence[int]


def faults(data: bytes, answer: str) -> Iterator[str]:
    """What of a journal isn't so, though the program answered yes to it."""
    try:
        journal = read_journal(Lines(io.BytesIO(data)))
    except BadJournal as bad:
        yield f"the pages' reader refuses it: {bad}"
        return
    if due(journal) != answer:
        yield f"the journal asks for {due(journal)!r}"
    for settlement in journal.settlements:
        yield from faults_of(journal, settlement)
    if journal.payments:
        yield from payment_faults(journal)


def gap_faults(data: bytes, answer: str) -> Iterator[str]:
    """What of a gap isn't so, though the program answered it."""
    try:
        journal = read_journal(Lines(io.BytesIO(data)))
    except BadJournal as bad:
        yield f"the pages' reader refuses it: {bad}"
        return
    settlement = journal.last
    group = settlement.spent
    if group is None or journal.end.word != "spent":
        yield "the journal doesn't end at a search that spent its branches"
        return
    yield from set_faults(journal, group)
    weights = weights_of(journal, settlement, group)
    value = sum(worth(bits, values) for bits, values in zip(group.sets, weights))
    names = [bidder.name for bidder in journal.bidders]
    seeks = group.seeks.split(" ")
    number = [str(names.index(seeks[1]))] if len(seeks) > 1 else []
    due_answer = " ".join(["gap", seeks[0], *number, str(value), str(group.bound)])
    if answer != due_answer:
        yield f"the journal asks for {due_answer!r}"
    if value >= (group.bound or 0):
        yield "the value isn't below the bound"
    best = best_value(journal, group, weights)
    if best is not None and not value <= best <= (group.bound or 0):
        yield f"the best assignment is worth {best}"


def faults_of(journal: Journal, settlement: Settlement) -> Iterator[str]:
    """What of a settlement isn't so."""
    final = settlement.group("final")
    for group in settlement.groups:
        here = f"settlement {settlement.number}, {group.seeks}"
        yield from (f"{here}: {fault}" for fault in set_faults(journal, group))
        weights = weights_of(journal, settlement, group)
        value = sum(worth(bits, values) for bits, values in zip(group.sets, weights))
        if group.value is not None and group.value != value:
            yield f"{here}: the sets are worth {value}"
        best = best_value(journal, group, weights)
        if group.log is not None and best is not None and best != value:
            yield f"{here}: an assignment is worth {best}"
    rival = settlement.group("rival")
    if final and rival and settlement.regret != (rival.value or 0) - (final.value or 0):
        yield f"settlement {settlement.number}: another regret"
    if settlement.prices and max(settlement.prices) > journal.settings.cap:
        yield f"settlement {settlement.number}: a price above the cap"


def worth(bits: str, values: Values) -> int:
    """What a set is worth."""
    return sum(value for bit, value in zip(bits, values) if bit == "1")


def weights_of(journal: Journal, settlement: Settlement, group: Group) -> list[list[int]]:
    """The values of each bidder's nodes at which a search seeks the best."""
    final = settlement.group("final")
    weights = []
    for number, (low, high) in enumerate(settlement.bounds):
        if group.seeks == "rival" and final:
            mine = final.sets[number]
            weights.append([a if bit == "1" else b for a, b, bit in zip(low, high, mine)])
        elif group.seeks == "provisional":
            part = journal.settings.weight
            weights.append([part * a + (100 - part) * b for a, b in zip(low, high)])
        else:
            weights.append(list(low))
    return weights


def is_satisfied(bidder: Bidder, bits: str) -> bool:
    """Whether a set takes no node without its parent, and as many children as it must and may."""
    for node, bit in zip(bidder.nodes, bits):
        if bit == "1" and node.up is not None and bits[node.up] == "0":
            return False
        if bit == "1" and node.kind == "choose":
            taken = sum(bits[child] == "1" for child in node.children)
            if not node.first <= taken <= node.second:
                return False
    return True


def is_feasible(journal: Journal, units: Sequence[Sequence[int]]) -> bool:
    """Whether what all buy is sold, and of a good without disposal all that is sold is bought."""
    sums = (sum(amounts) for amounts in zip(*units))
    return all(sum_ == 0 if good.exact else sum_ <= 0 for good, sum_ in zip(journal.goods, sums))


def set_faults(journal: Journal, group: Group) -> Iterator[str]:
    """What of a group's sets isn't so."""
    goods = len(journal.goods)
    for bidder, bits in zip(journal.bidders, group.sets):
        if not is_satisfied(bidder, bits):
            yield f"the set of {bidder.name} isn't satisfied"
        if group.seeks == f"without {bidder.name}" and "1" in bits:
            yield f"{bidder.name} takes part"
    units = [bidder.units(bits, goods) for bidder, bits in zip(journal.bidders, group.sets)]
    if not is_feasible(journal, units):
        yield "the sets aren't feasible"


def satisfied_sets(bidder: Bidder) -> list[str] | None:
    """All satisfied sets of a bidder, where its tree is small."""
    if len(bidder.nodes) > 10:
        return None
    texts = ("".join(bits) for bits in product("01", repeat=len(bidder.nodes)))
    return [bits for bits in texts if is_satisfied(bidder, bits)]


def best_value(journal: Journal, group: Group, weights: Sequence[Values]) -> int | None:
    """The value of the best assignment, where all can be tried."""
    choices = []
    for bidder in journal.bidders:
        found = satisfied_sets(bidder)
        if found is None:
            return None
        empty = "0" * len(bidder.nodes)
        choices.append([empty] if group.seeks == f"without {bidder.name}" else found)
    if prod(map(len, choices)) > TRIED:
        return None
    goods = len(journal.goods)
    offers = [
        [(worth(bits, values), bidder.units(bits, goods)) for bits in sets]
        for bidder, sets, values in zip(journal.bidders, choices, weights)
    ]
    best: int = max(
        sum(value for value, _ in taken)
        for taken in product(*offers)
        if is_feasible(journal, [units for _, units in taken])
    )
    return best


def payment_faults(journal: Journal) -> Iterator[str]:
    """What of the cut, the payments and the surplus isn't so."""
    last, final = journal.last, journal.shown
    total = Fraction(final.value or 0)
    discounts = []
    for number, (bidder, payment) in enumerate(zip(journal.bidders, journal.payments)):
        without = last.group(f"without {bidder.name}")
        vickrey = total - ((without.value or 0) if without else 0)
        discounts.append(vickrey)
        due_discount = max(Fraction(0), vickrey - journal.cut)
        due_payment = worth(final.sets[number], last.bounds[number][0]) - due_discount
        stated = (Fraction(payment.vickrey), payment.discount, payment.payment)
        if stated != (vickrey, due_discount, due_payment):
            yield f"the payment of {bidder.name}: due is {vickrey} {due_discount} {due_payment}"
    if journal.surplus != sum(payment.payment for payment in journal.payments):
        yield "the surplus isn't the sum of the payments"
    if journal.cut != least_cut(discounts, total):
        yield f"the cut is {least_cut(discounts, total)}"


def least_cut(vickreys: Sequence[Fraction], total: Fraction) -> Fraction:
    """The least cut with which the discounts sum to no more than the total."""
    if sum(vickreys) <= total:
        return Fraction(0)
    ranked = sorted(vickreys, reverse=True)
    for count in range(1, len(ranked) + 1):
        cut = (sum(ranked[:count]) - total) / count
        below = ranked[count] if count < len(ranked) else Fraction(0)
        if cut >= below:
            return cut
    raise AssertionError("the total is below 0")
