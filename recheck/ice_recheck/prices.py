"""Prices, their violation, and the rows which show that no other prices are better."""
from __future__ import annotations

from dataclasses import dataclass
from math import gcd

from .bounds import HUNDREDTHS
from .groups import Journal, test_set
from .records import Rule
from .trees import NodeSet, greatest, net_weights, units, value

MOST_ROWS = 200


@dataclass
class Prices:
    """A price for each good: a numerator over the common denominator."""

    denominator: int
    numerators: list[int]


@dataclass
class Offer:
    """Provisional sets with their weighted values, and the prices that go with them."""

    weights: list[list[int]]
    sets: list[NodeSet]
    prices: Prices


@dataclass
class Sums:
    """The sums over a list of rows: weights, and weights times values and times units."""

    weight: int
    value: int
    units: list[int]

    @property
    def bought(self) -> int:
        """The sum of the goods' units above 0."""
        return sum(number for number in self.units if number > 0)


def read_prices(journal: Journal) -> Prices:
    """Prices within the cap, in lowest terms."""
    records, exchange = journal.records, journal.exchange
    record = records.take("limit", "prices")
    records.test(record.form == "prices", Rule.CLOSED)
    denominator, numerators = record.fields
    records.test(len(numerators) == len(exchange.goods), Rule.ORDER)
    prices = Prices(denominator, numerators)
    records.test(is_lawful(prices, exchange.settings.cap), Rule.PRICES)
    return prices


def is_lawful(prices: Prices, cap: int) -> bool:
    """Whether prices are within the cap, and in lowest terms."""
    is_within = max(prices.numerators) <= cap * prices.denominator
    return is_within and gcd(prices.denominator, *prices.numerators) == 1


def violation(journal: Journal, offer: Offer) -> int:
    """The most that a bidder would gain by another set, in hundredths times the denominator."""
    rates = [HUNDREDTHS * numerator for numerator in offer.prices.numerators]
    most = 0
    for bidder, weights, inside in zip(journal.exchange.bidders, offer.weights, offer.sets):
        scaled = [offer.prices.denominator * weight for weight in weights]
        net = net_weights(bidder.tree, scaled, rates)
        most = max(most, int(greatest(bidder.tree, net)) - value(net, inside))
    return most


def read_rows(journal: Journal, offer: Offer) -> Sums:
    """The sums of the rows that come next, of which 200 are a whole list."""
    records, exchange = journal.records, journal.exchange
    goods = len(exchange.goods)
    sums = Sums(0, 0, [0] * goods)
    count = 0
    while count < MOST_ROWS and records.next_is("row"):
        number, weight, inside = records.take("row").fields
        test_set(records, exchange, number, inside)
        own, weights = offer.sets[number], offer.weights[number]
        tree = exchange.bidders[number].tree
        sums.weight += weight
        sums.value += weight * (value(weights, inside) - value(weights, own))
        both = zip(sums.units, units(tree, inside, goods), units(tree, own, goods))
        sums.units = [total + weight * (new - old) for total, new, old in both]
        count += 1
    if count < MOST_ROWS:
        records.coming()
    return sums


def read_certificates(journal: Journal, offer: Offer) -> None:
    """The violation, and the rows of both stages."""
    records, prices = journal.records, offer.prices
    stated, scale = records.take("accuracy").fields
    records.test(stated == violation(journal, offer), Rule.VIOLATION)
    rows = read_rows(journal, offer)
    shown = rows.value - HUNDREDTHS * journal.exchange.settings.cap * rows.bought
    is_accurate = rows.weight <= scale and prices.denominator * shown == stated * scale
    records.test(is_accurate, Rule.ACCURACY)
    (scale,) = records.take("balance").fields
    rows = read_rows(journal, offer)
    shown = prices.denominator * rows.value - stated * rows.weight
    is_balanced = rows.bought <= scale and shown == HUNDREDTHS * scale * max(prices.numerators)
    records.test(is_balanced, Rule.BALANCE)


def read_offer(journal: Journal, weights: list[list[int]], sets: list[NodeSet]) -> Offer:
    """The prices that go with provisional sets, with their certificates."""
    offer = Offer(weights, sets, read_prices(journal))
    read_certificates(journal, offer)
    return offer
