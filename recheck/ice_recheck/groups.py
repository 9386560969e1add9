"""Groups: a set for each bidder, and the log which shows that no assignment is worth more."""
from __future__ import annotations

from dataclasses import dataclass
from typing import NoReturn

from .derivations import read_derivation
from .logs import Bounding, Tolled, check_log
from .records import Records, Rule
from .section import Exchange
from .trees import NodeSet, broken_rule, units, value


@dataclass
class Group:
    """A value, and an assignment that has it."""

    value: int
    sets: list[NodeSet]


@dataclass
class Journal:
    """The records of a journal, its version, and the exchange that its section describes."""

    records: Records
    version: int
    exchange: Exchange
    tolled: list[Tolled]  # the goods, and the derived goods so far
    asks_gap: bool = False  # whether what stands behind `spent` is tested too


class Gap(Exception):
    """A journal ends at a search that spent its branches, and every test of it passes."""

    def __init__(self, group: list[str | int], value: int, bound: int) -> None:
        super().__init__(group, value, bound)
        self.group, self.value, self.bound = group, value, bound


def test_set(records: Records, exchange: Exchange, bidder: int, inside: NodeSet) -> None:
    """The tests of a bidder's set, which stands in the record that was taken last."""
    records.test(bidder < len(exchange.bidders), Rule.COUNT)
    tree = exchange.bidders[bidder].tree
    records.test(len(inside) == tree.size, Rule.COUNT)
    broken = broken_rule(tree, inside)
    if broken is not None:
        records.fail(broken)


def read_sets(records: Records, exchange: Exchange, left_out: int | None = None) -> list[NodeSet]:
    """A satisfied set for each bidder in order, which is empty of the one that is left out."""
    sets = []
    totals = [0] * len(exchange.goods)
    for number, bidder in enumerate(exchange.bidders):
        (inside,) = records.take("set").fields
        test_set(records, exchange, number, inside)
        records.test(number != left_out or not any(inside), Rule.FIXING)
        sets.append(inside)
        added = units(bidder.tree, inside, len(totals))
        totals = [total + number for total, number in zip(totals, added)]
    for good, total in zip(exchange.goods, totals):
        records.test(total == 0 if good.exact else total <= 0, Rule.EXCESS)
    return sets


def read_group(
    journal: Journal, form: str, weights: list[list[int]], left_out: int | None = None
) -> Group:
    """A group at these weights, one list for each bidder; in `without` a bidder is left out."""
    group = [] if left_out is None else [left_out]
    while journal.version == 3 and journal.records.next_is("derive"):
        read_derivation(journal.records, journal.exchange, journal.tolled)
    head = journal.records.take("spent", form)
    if head.form != form:
        read_gap(journal, [form, *group], weights, left_out, *head.fields)
    *bidder, stated = head.fields
    journal.records.test(bidder == group, Rule.ORDER)
    return Group(stated, read_found(journal, weights, left_out, stated, stated))


def read_gap(
    journal: Journal,
    group: list[str | int],
    weights: list[list[int]],
    left_out: int | None,
    stated: int,
    bound: int,
) -> NoReturn:
    """What stands behind a `spent` record in the place of a group's head, where it is asked for."""
    journal.records.test(journal.asks_gap, Rule.CLOSED)
    journal.records.test(stated < bound, Rule.SPENT)
    read_found(journal, weights, left_out, stated, bound)
    journal.records.take_end("spent")
    raise Gap(group, stated, bound)


def read_found(
    journal: Journal, weights: list[list[int]], left_out: int | None, stated: int, target: int
) -> list[NodeSet]:
    """The sets of a group, which have this value, and the log: nothing is above the target."""
    records, exchange = journal.records, journal.exchange
    sets = read_sets(records, exchange, left_out)
    worth = sum(map(value, weights, sets))
    records.test(worth == stated, Rule.VALUE)
    bounding = Bounding(exchange, journal.tolled, weights, journal.version)
    check_log(records, bounding, target, left_out)
    return sets
