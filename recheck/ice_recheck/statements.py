"""Statements: what a session shows to one bidder, and the audit of it, with no journal."""
from __future__ import annotations

from dataclasses import dataclass
from fractions import Fraction

from .bounds import Bounds
from .grammar import STATEMENT_FORMS, Record
from .groups import test_set
from .journals import LIMIT, Answer
from .prices import Prices, is_lawful
from .records import TOO_LARGE, Failed, Records, Refused, Rule
from .section import Bidder, Exchange, Settings, read_bidder, read_goods
from .sessions import VERDICTS
from .trees import NodeSet, value
from .verdicts import ACCEPTED, Judge


@dataclass
class Statement:
    """The lines of a statement, and the exchange of its one bidder."""

    records: Records
    exchange: Exchange

    @property
    def bidder(self) -> Bidder:
        """The bidder."""
        return self.exchange.bidders[0]

    def take_own(self, form: str) -> Record:
        """The next record, which has to be of this form and of this bidder."""
        record = self.records.take(form)
        self.records.test(record.fields[0] == self.bidder.name, Rule.ORDER)
        return record

    def read_set(self, form: str) -> NodeSet:
        """A satisfied set of the bidder."""
        inside: NodeSet = self.records.take(form).fields[0]
        test_set(self.records, self.exchange, 0, inside)
        return inside


def read_section(records: Records) -> Exchange:
    """The exchange of the one bidder whose statement it is."""
    (name,) = records.take("statement").fields
    settings = Settings(*records.take("settings").fields)
    goods = read_goods(records)
    if records.next_is("bidder") and records.coming().fields[0] != name:
        records.take("bidder")
        records.fail(Rule.ORDER)
    return Exchange(settings, goods, [read_bidder(records, goods, [])])


def read_statement(records: Records) -> Fraction:
    """All settlements; the payment where every test passes."""
    statement = Statement(records, read_section(records))
    settings, bounds = statement.exchange.settings, statement.bidder.bounds
    number = 0
    while True:
        records.test(records.take("settle").fields == [number], Rule.ORDER)
        (regret,) = records.take("regret").fields
        kept = statement.read_set("kept")
        if regret <= settings.close_regret or number == settings.rounds:
            return read_close(statement, bounds, kept)
        offered = statement.read_set("offered")
        bounds = read_round(statement, bounds, offered, read_prices(statement))
        number += 1


def read_prices(statement: Statement) -> Prices:
    """Prices within the cap, in lowest terms."""
    records, exchange = statement.records, statement.exchange
    prices = Prices(*records.take("prices").fields)
    records.test(len(prices.numerators) == len(exchange.goods), Rule.ORDER)
    records.test(is_lawful(prices, exchange.settings.cap), Rule.PRICES)
    return prices


def read_round(statement: Statement, old: Bounds, offered: NodeSet, prices: Prices) -> Bounds:
    """The bidder's submissions, each with the verdict due; the bounds that they leave."""
    records, improve = statement.records, statement.exchange.settings.improve
    accepted: Bounds | None = None
    while records.next_is("submit"):
        _, lower, upper = statement.take_own("submit").fields
        judge = Judge(statement.bidder.tree, prices, offered, improve, old, Bounds(lower, upper))
        due = Record("verdict 44", []) if accepted else judge.verdict()
        records.test(records.take(*VERDICTS) == due, Rule.VERDICT)
        if due == ACCEPTED:
            accepted = judge.new
    return accepted or old


def read_close(statement: Statement, bounds: Bounds, kept: NodeSet) -> Fraction:
    """The payment, where it is what the set is worth less the discount that the cut leaves.

    An empty set has no Vickrey discount, and neither the cut nor the surplus is below 0.
    """
    records = statement.records
    cut, surplus = records.take("threshold").fields
    records.test(cut >= 0 and surplus >= 0, Rule.ORDER)
    payment: Fraction
    _, vickrey, discount, payment = statement.take_own("payment").fields
    records.test(any(kept) or vickrey == 0, Rule.PAYMENT)
    due = max(Fraction(0), vickrey - cut)
    records.test([discount, payment] == [due, value(bounds.lower, kept) - due], Rule.PAYMENT)
    records.take_end("statement")
    return payment


def audit(content: bytes) -> Answer:
    """The answer to a statement of these bytes; of those past the limit one is enough."""
    try:
        if len(content) > LIMIT:
            raise Refused(TOO_LARGE, "-")
        records = Records(content, STATEMENT_FORMS)
        try:
            payment = read_statement(records)
        except Failed as failed:
            records.read_to_end()
            return Answer(f"no {failed.line} {failed.rule.value}", 3)
    except Refused as fault:
        return Answer(f"refused 1 {fault.number} {fault.place}", 2)
    return Answer(f"yes {payment.numerator}/{payment.denominator}", 0)
