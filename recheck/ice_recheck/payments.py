"""Payments: the cut, the surplus, and what each bidder pays."""
from __future__ import annotations

from fractions import Fraction

from .bounds import Bounds
from .groups import Group, Journal
from .records import Rule
from .trees import value


def read_payments(
    journal: Journal, bounds: list[Bounds], final: Group, without: list[int]
) -> Fraction:
    """The surplus, where the cut and all payments are those due."""
    records = journal.records
    vickrey = [final.value - best for best in without]
    cut: Fraction
    surplus: Fraction
    cut, surplus = records.take("threshold").fields
    discounts = [max(Fraction(0), most - cut) for most in vickrey]
    rest = final.value - sum(discounts)
    is_cut = 0 <= cut <= max(vickrey) and rest >= 0 and (cut == 0 or rest == 0)
    records.test(is_cut and surplus == rest, Rule.THRESHOLD)
    for number, bidder in enumerate(journal.exchange.bidders):
        name, *stated = records.take("payment").fields
        records.test(name == bidder.name, Rule.ORDER)
        worth = value(bounds[number].lower, final.sets[number])
        discount = discounts[number]
        records.test(stated == [vickrey[number], discount, worth - discount], Rule.PAYMENT)
    return surplus
