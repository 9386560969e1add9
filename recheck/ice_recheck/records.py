"""The records of a journal, one after another, and the first test that fails."""
from __future__ import annotations

from enum import Enum
from typing import NoReturn

from .grammar import FORMS, Form, NoRecord, Record, read_record


class Rule(Enum):
    """The tests, by the names that docs/formats.md gives them."""

    CLOSED = "closed"
    ORDER = "order"
    SHORT = "short"
    EXCHANGE = "exchange"
    COUNT = "count"
    PARENT = "parent"
    FEW = "few"
    MANY = "many"
    FIXING = "fixing"
    EXCESS = "excess"
    DERIVED = "derived"
    VALUE = "value"
    NEAR = "near"
    SIGN = "sign"
    FIXED = "fixed"
    ABOVE = "above"
    ALIVE = "alive"
    REGRET = "regret"
    PRICES = "prices"
    VIOLATION = "violation"
    ACCURACY = "accuracy"
    BALANCE = "balance"
    VERDICT = "verdict"
    THRESHOLD = "threshold"
    PAYMENT = "payment"
    SPENT = "spent"  # of a gap alone: here none is stated


class Failed(Exception):
    """A test fails, at this line."""

    def __init__(self, line: int, rule: Rule) -> None:
        super().__init__(line, rule)
        self.line, self.rule = line, rule


class Refused(Exception):
    """The file is at fault, by the number of a fault and its place."""

    def __init__(self, number: int, place: str) -> None:
        super().__init__(number, place)
        self.number, self.place = number, place


NO_RECORD, NOT_ENDED, OTHER_KIND, TOO_LARGE = 50, 51, 53, 61


class Records:
    """The records of a file, read one at a time. Lines are numbered from 1."""

    def __init__(self, content: bytes, forms: dict[str, Form] = FORMS) -> None:
        self.content, self.forms = content, forms
        self.start = 0  # of the line that is read next
        self.lines_read = 0
        self.line = 0  # of the record that was taken last
        self.following: Record | None = None
        self.read_on()

    def read_on(self) -> None:
        """Reads the next line; Refused where it isn't ended or is no record."""
        self.following = None
        if self.start == len(self.content):
            return
        self.lines_read += 1
        end = self.content.find(b"\n", self.start)
        if end < 0:
            raise Refused(NOT_ENDED, str(self.lines_read))
        try:
            self.following = read_record(self.content[self.start : end], self.forms)
        except NoRecord:
            raise Refused(NO_RECORD, str(self.lines_read)) from None
        self.start = end + 1

    def next_is(self, *forms: str) -> bool:
        """Whether a record of one of these forms comes next."""
        return self.following is not None and self.following.form in forms

    def coming(self) -> Record:
        """The record that comes next, which has to be there."""
        if self.following is None:
            raise Failed(self.line + 1, Rule.SHORT)
        return self.following

    def take(self, *forms: str) -> Record:
        """The next record, which has to be of one of these forms."""
        record = self.coming()
        self.line += 1
        self.test(record.form in forms, Rule.ORDER)
        self.read_on()
        return record

    def take_first(self) -> Record | None:
        """The first record, of any form, where there is one."""
        return None if self.following is None else self.take(self.following.form)

    def take_end(self, word: str) -> None:
        """The last record, `end` with this word; behind it stands nothing."""
        self.test(self.take("end").fields == [word], Rule.ORDER)
        if self.following is not None:
            raise Failed(self.line + 1, Rule.ORDER)

    def read_to_end(self) -> None:
        """Reads all lines that are left; Refused at the first one at fault."""
        while self.following is not None:
            self.read_on()

    def test(self, passed: bool, rule: Rule) -> None:
        """A test at the record that was taken last."""
        if not passed:
            self.fail(rule)

    def fail(self, rule: Rule) -> NoReturn:
        """A test fails at the record that was taken last."""
        raise Failed(self.line, rule)
