"""The records of a journal: one grammar, a line at a time, as docs/formats.md states it."""
from __future__ import annotations

import re
from fractions import Fraction
from itertools import islice
from typing import Any, Callable, Iterator, NamedTuple


class Misspelt(Exception):
    """A line is no record."""


class Record(NamedTuple):
    """A record: its fixed words, such as `node choose`, and the values of its fields."""

    head: str
    fields: list[Any]


class Field:
    """One value: a pattern of its spelling, and what reads it."""

    def __init__(self, pattern: str, convert: Callable[[str], Any] = str) -> None:
        self.pattern, self.convert = f"(?:{pattern})", convert
        self.spaced = f" {self.pattern}"

    def read(self, words: Iterator[str]) -> Any:
        """Takes the field's words, and gives its value."""
        return self.convert(next(words))


class Perhaps(Field):
    """A number that is left out where it is 0."""

    def __init__(self, one: Field) -> None:
        super().__init__(one.pattern, one.convert)
        self.spaced = f"(?: {self.pattern})?"

    def read(self, words: Iterator[str]) -> Any:
        return self.convert(next(words, "0"))


class Several(Field):
    """All values that are left, at least one."""

    def __init__(self, one: Field, most: int) -> None:
        super().__init__(f"{one.pattern}(?: {one.pattern}){{0,{most - 1}}}", one.convert)

    def read(self, words: Iterator[str]) -> Any:
        return list(map(self.convert, words))


class Counted(Field):
    """A number, and then so many values."""

    def __init__(self, one: Field, most: int) -> None:
        super().__init__(f"(?:{whole(0, most).pattern})(?: {one.pattern}){{0,{most}}}", one.convert)

    def read(self, words: Iterator[str]) -> Any:
        count = int(next(words, "-1"))
        if count < 0:
            raise Misspelt
        values = list(map(self.convert, islice(words, count)))
        if len(values) != count:
            raise Misspelt
        return values


class Pairs(Field):
    """A number, and then so many pairs of numbers, of which the first ones ascend."""

    def __init__(self, first: Field, second: Field, most: int, least: int = 0) -> None:
        pair = f"{first.pattern} {second.pattern}"
        super().__init__(f"{whole(least, most).pattern}(?: {pair}){{{least},{most}}}", int)

    def read(self, words: Iterator[str]) -> Any:
        count, *numbers = map(int, words)
        firsts = numbers[::2]
        if len(numbers) != 2 * count or any(a >= b for a, b in zip(firsts, firsts[1:])):
            raise Misspelt
        return list(zip(firsts, numbers[1::2]))


def up_to(most: int) -> str:
    """A pattern of the whole numbers from 1 to most, which have no leading zero."""
    digits = str(most)
    choices = [f"[1-9][0-9]{{0,{len(digits) - 2}}}"] if len(digits) > 1 else []
    for place, digit in enumerate(digits):
        rest = digits[place + 1 :]
        least, greatest = 0 if place else 1, int(digit) - (rest.strip("9") != "")
        if least <= greatest:
            choices.append(f"{digits[:place]}[{least}-{greatest}]" + "[0-9]" * len(rest))
        if not rest.strip("9"):
            break
    return "|".join(choices)


def whole(low: int, high: int) -> Field:
    """A whole number from low, which is at most 1, to high."""
    if low == -high:
        return Field(f"0|-?(?:{up_to(high)})", int)
    zero = "0|" if low <= 0 else ""
    negative = f"|-(?:{up_to(-low)})" if low < 0 else ""
    return Field(f"{zero}{up_to(high)}{negative}", int)


def one_of(*words: str) -> Field:
    """One of these words."""
    return Field("|".join(words))


def lowest(word: str) -> Fraction:
    """The fraction that is spelled in lowest terms."""
    fraction = Fraction(word)
    if f"{fraction.numerator}/{fraction.denominator}" != word:
        raise Misspelt
    return fraction


NAME = Field("[A-Za-z0-9_.-]{1,32}")
BITS = Field("[01]{1,200}")
PLACE = Field("[A-Za-z0-9_.-]{1,256}")
BIDDER, GOOD, NODE, FILE = whole(0, 39), whole(0, 31), whole(0, 199), whole(1, 21)
UNITS, OWNED = whole(1, 1000), whole(0, 10**6)
VALUE = whole(-(10**9), 10**9)
TOTAL, REGRET, VICKREY = (
    whole(-4 * 10**14, 4 * 10**14),
    whole(0, 4 * 10**14),
    whole(0, 10**15),
)
MULTIPLIER = whole(-(2**56), 2**56)
AMOUNT = Field(f"-?(?:{up_to(2**20)})", int)
VIOLATION, DENOMINATOR = whole(0, 2**100), whole(1, 2**32)
FRACTION = Field(f"{whole(-10**18, 10**18).pattern}/{whole(1, 1000).pattern}", lowest)
HELD, HELD_MOST = whole(0, 2**24), whole(1, 2**24)
STAGE, KIND = one_of("accuracy", "balance"), one_of("wide", "pivots", "rows", "den")
ENDS = one_of("assign", "exchange", "prices", "regret", "closed", "open", "spent", "limit")


class Form:
    """The form of a record: its heading in docs/formats.md, and its fields."""

    def __init__(self, heading: str, *fields: Field) -> None:
        fixed = [word for word in heading.split() if word.islower() or word.isdigit()]
        self.heading, self.fields, self.head = heading, fields, " ".join(fixed)
        self.pattern = self.head + "".join(field.spaced for field in fields)
        self.shape: re.Pattern[str] | None = None

    def read(self, line: str) -> Record:
        """The record that the line is."""
        self.shape = self.shape or re.compile(self.pattern)
        if not self.shape.fullmatch(line):
            raise Misspelt
        words = iter(line[len(self.head) + 1 :].split(" ") if self.fields else ())
        values = [field.read(words) for field in self.fields]
        if next(words, None) is not None:
            raise Misspelt
        return Record(self.head, values)


ALL_FORMS = (
    Form("ice 1 KIND", one_of("assign", "regret", "session", "exchange", "prices")),
    Form("ice 2 KIND", one_of("regret", "session")),
    Form(
        "settings W C P I R B D",
        whole(0, 100),
        whole(0, 10**12),
        whole(1, 10**9),
        whole(0, 10**9),
        whole(0, 20),
        whole(0, 50000),
        Perhaps(whole(1, 2000)),
    ),
    Form("good NAME", NAME),
    Form("exact NAME", NAME),
    Form("bidder NAME O ..", NAME, Several(OWNED, 32)),
    Form("node choose L M N LO HI", NODE, NODE, NODE, VALUE, VALUE),
    Form("node buy G U LO HI", GOOD, UNITS, VALUE, VALUE),
    Form("node sell G U LO HI", GOOD, UNITS, VALUE, VALUE),
    Form("assign"),
    Form("settle R", whole(0, 20)),
    Form("final V", TOTAL),
    Form("rival V", TOTAL),
    Form("provisional V", TOTAL),
    Form("without B V", BIDDER, TOTAL),
    Form("set BITS", BITS),
    Form("branch B N", BIDDER, NODE),
    Form("leaf M ..", Several(MULTIPLIER, 32)),
    Form("near K G M ..", Pairs(GOOD, MULTIPLIER, 32)),
    Form("derive L", whole(-(2**40), 2**40)),
    Form("amounts B K N C ..", BIDDER, Pairs(NODE, AMOUNT, 200, least=1)),
    Form("tolled K G M ..", Pairs(whole(0, 2031), whole(-(2**62), 2**62), 300)),
    Form("dead B", BIDDER),
    Form("regret A", REGRET),
    Form("prices D N ..", DENOMINATOR, Several(whole(0, 2**62), 32)),
    Form("accuracy X D", VIOLATION, DENOMINATOR),
    Form("balance D", DENOMINATOR),
    Form("row B W BITS", BIDDER, DENOMINATOR, BITS),
    Form("submit NAME K LO .. L HI ..", NAME, Counted(VALUE, 200), Counted(VALUE, 200)),
    Form("verdict accepted"),
    Form("verdict 40 N", NODE),
    Form("verdict 41 N", NODE),
    *(Form(f"verdict {number}") for number in range(42, 47)),
    Form("threshold C S", FRACTION, FRACTION),
    Form("payment NAME V D P", NAME, VICKREY, FRACTION, FRACTION),
    Form("spent V X", TOTAL, whole(-(2**127), 2**127 - 1)),
    Form("limit STAGE KIND X D", STAGE, KIND, VIOLATION, DENOMINATOR),
    Form("pool B BITS", BIDDER, BITS),
    Form("end WORD", ENDS),
    Form("refused F N PLACE", FILE, whole(1, 99), PLACE),
    Form("unread F", FILE),
)
FORMS = {form.head: form for form in ALL_FORMS}
STATEMENT_FORMS = (
    Form("statement NAME", NAME),
    Form("kept BITS", BITS),
    Form("offered BITS", BITS),
    Form("end statement"),
)
FAIR_FORMS = (
    Form("distance N/D", Field(f"{whole(0, 2**127).pattern}/{whole(1, 2**48).pattern}", lowest)),
    Form("fairness D", HELD_MOST),
    Form("hold B LOW HIGH", BIDDER, HELD, HELD),
    Form("end fair"),
)
# The head of version 3, which the program doesn't read yet.
LATER_FORMS = (Form("ice 3 KIND", one_of("regret", "session")),)
OTHER_FORMS = (*STATEMENT_FORMS, *FAIR_FORMS, *LATER_FORMS)
ALL_HEADS = FORMS | {form.head: form for form in OTHER_FORMS}


def read_record(line: str) -> Record:
    """The record, or the line of a statement or of fair prices, that the line is, else Misspelt."""
    words = line.split(" ", 2)
    form = ALL_HEADS.get(" ".join(words[:2])) or ALL_HEADS.get(words[0])
    if form is None:
        raise Misspelt
    return form.read(line)


def log_lines(leaf: str) -> re.Pattern[bytes]:
    """A pattern of lines of a log whose leaves are `leaf`, `near` or `tolled` records.

    Of a leaf, of which a page shows nothing, it knows the word and which characters may follow.
    """
    steps = "|".join(f"{FORMS[head].pattern}\n" for head in ("branch", "dead"))
    return re.compile(f"(?:{leaf} [0-9 -]*[0-9]\n|{steps})*".encode())
