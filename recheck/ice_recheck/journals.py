"""Journals of each kind, and the answer to one."""
from __future__ import annotations

from collections.abc import Callable
from typing import NamedTuple

from .groups import Gap, Journal, read_sets
from .logs import tolled_goods
from .records import OTHER_KIND, TOO_LARGE, Failed, Records, Refused, Rule
from .section import read_exchange
from .sessions import read_best, read_session
from .trees import value

LIMIT = 134_217_728  # bytes
VERSIONS = {"ice 1": 1, "ice 2": 2, "ice 3": 3}


class Answer(NamedTuple):
    """A line, without its newline, and the exit status that goes with it."""

    line: str
    status: int


def read_assign(journal: Journal) -> str:
    """An assignment; the answer where every test passes."""
    journal.records.take("assign")
    sets = read_sets(journal.records, journal.exchange)
    journal.records.take_end("assign")
    lower = [bounds.lower for bounds in journal.exchange.bounds()]
    return f"yes {sum(map(value, lower, sets))}"


def read_regret(journal: Journal) -> str:
    """A best assignment with its regret; the answer where every test passes."""
    _, regret = read_best(journal, journal.exchange.bounds())
    journal.records.take_end("regret")
    return f"yes {regret}"


KINDS = {"assign": read_assign, "regret": read_regret, "session": read_session}


def read_journal(records: Records, asks_gap: bool = False) -> str:
    """A journal of any kind; the answer where every test passes."""
    head = records.take_first()
    if head is None or head.form not in VERSIONS or head.fields[0] not in KINDS:
        records.read_to_end()
        raise Refused(OTHER_KIND, "-")
    version = VERSIONS[head.form]
    exchange = read_exchange(records)
    journal = Journal(records, version, exchange, tolled_goods(exchange), asks_gap)
    return KINDS[head.fields[0]](journal)


def read_spent(records: Records) -> str:
    """A journal that ends at a search which spent its branches; the answer where it states a gap.

    Where it stops otherwise, or is whole, the first line that states no gap fails.
    """
    try:
        read_journal(records, asks_gap=True)
    except Gap as gap:
        return " ".join(map(str, ["gap", *gap.group, gap.value, gap.bound]))
    except Failed as failed:
        is_stop = failed.rule is Rule.CLOSED
        raise Failed(failed.line, Rule.SPENT if is_stop else failed.rule) from None
    raise Failed(records.line + 1, Rule.SPENT)


def judge(content: bytes, read: Callable[[Records], str]) -> Answer:
    """The answer where all lines are records; Refused at the first that isn't."""
    if len(content) > LIMIT:
        raise Refused(TOO_LARGE, "-")
    records = Records(content)
    try:
        return Answer(read(records), 0)
    except Failed as failed:
        records.read_to_end()
        return Answer(f"no {failed.line} {failed.rule.value}", 3)


def answer_to(content: bytes, read: Callable[[Records], str]) -> Answer:
    """The answer to a file of these bytes; of those past the limit one is enough."""
    try:
        return judge(content, read)
    except Refused as fault:
        return Answer(f"refused 1 {fault.number} {fault.place}", 2)


def check(content: bytes) -> Answer:
    """The answer of the checker."""
    return answer_to(content, read_journal)


def gap(content: bytes) -> Answer:
    """The gap that a journal states."""
    return answer_to(content, read_spent)
