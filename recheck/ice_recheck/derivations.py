"""Derivations: amounts, a limit, and the log which shows that no assignment takes more."""
from __future__ import annotations

from .logs import Bounding, Tolled, check_log
from .records import Records, Rule
from .section import Exchange


def read_derivation(records: Records, exchange: Exchange, tolled: list[Tolled]) -> None:
    """Adds a derived good to the goods and the derived goods before it, from which it follows."""
    (limit,) = records.take("derive").fields
    stated = len(tolled) - len(exchange.goods)
    records.test(stated < exchange.settings.derived, Rule.DERIVED)
    derived = Tolled(limit)
    read_amounts(records, exchange, derived)
    weights = [[0] * bidder.tree.size for bidder in exchange.bidders]
    derived.weigh(weights, 1)
    check_log(records, Bounding(exchange, tolled, weights, 3), limit)
    tolled.append(derived)


def read_amounts(records: Records, exchange: Exchange, derived: Tolled) -> None:
    """The amounts of each bidder that has any: of one at least."""
    last = -1
    while last < 0 or records.next_is("amounts"):
        bidder, amounts = records.take("amounts").fields
        records.test(bidder > last, Rule.ORDER)
        is_there = bidder < len(exchange.bidders)
        greatest_node, _ = amounts[-1]
        is_there = is_there and greatest_node < exchange.bidders[bidder].tree.size
        records.test(is_there, Rule.DERIVED)
        derived.put(bidder, amounts)
        last = bidder
