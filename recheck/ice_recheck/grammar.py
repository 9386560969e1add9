"""The grammar: which lines are records. The table is that of docs/formats.md."""
from __future__ import annotations

import re
from fractions import Fraction
from math import gcd
from typing import Any, Callable, NamedTuple

LONGEST_LINE, LONGEST_NUMBER = 8192, 40  # characters: no record and no range has longer ones


class NoRecord(Exception):
    """A line is no record."""


class Record(NamedTuple):
    """A record: the words that name its form, such as `node buy`, and the values of its fields."""

    form: str
    fields: list[Any]


Reader = Callable[[str], Any]  # of one field; ValueError where it has another spelling
Form = Callable[[list[str]], list[Any]]  # of all fields of a record; likewise


def demand(holds: bool) -> None:
    """ValueError where it doesn't hold."""
    if not holds:
        raise ValueError


def numbers_in(words: list[str]) -> list[int]:
    """Whole numbers in their one spelling: what Python writes of them."""
    demand(all(len(word) <= LONGEST_NUMBER for word in words))
    numbers = list(map(int, words))
    demand(list(map(str, numbers)) == words)
    return numbers


def within(numbers: list[int], low: int, high: int) -> list[int]:
    """The same numbers, each from low to high."""
    demand(not numbers or low <= min(numbers) and max(numbers) <= high)
    return numbers


def whole(low: int, high: int) -> Reader:
    """A whole number from low to high."""
    return lambda word: within(numbers_in([word]), low, high)[0]


def size_up_to(most: int) -> Reader:
    """A whole number of at most this size."""
    return whole(-most, most)


def one_of(*choices: str) -> Reader:
    """One of these words."""
    return lambda word: choices[choices.index(word)]


def spelled(most: int) -> Reader:
    """1 to `most` letters, digits, `_`, `-` and `.`."""
    pattern = re.compile(f"[A-Za-z0-9_.-]{{1,{most}}}")

    def read(word: str) -> str:
        demand(pattern.fullmatch(word) is not None)
        return word

    return read


def bits(word: str) -> list[bool]:
    """1 to 200 characters 0 or 1, one for each node."""
    demand(1 <= len(word) <= 200 and set(word) <= {"0", "1"})
    return [bit == "1" for bit in word]


def fraction(word: str) -> Fraction:
    """N/D in lowest terms, D from 1 to 1,000, N at most 10^18 in size."""
    number, denominator = numbers_in(word.split("/"))
    demand(abs(number) <= 10**18 and 1 <= denominator <= 1000 and gcd(number, denominator) == 1)
    return Fraction(number, denominator)


def exactly(*readers: Reader) -> Form:
    """One field for each of these readers."""

    def read(words: list[str]) -> list[Any]:
        demand(len(words) == len(readers))
        return [reader(word) for reader, word in zip(readers, words)]

    return read


def then_list(*readers: Reader, low: int, high: int) -> Form:
    """One field for each of these readers, and then a list of 1 to 32 numbers."""
    front, count = exactly(*readers), len(readers)

    def read(words: list[str]) -> list[Any]:
        demand(1 <= len(words) - count <= 32)
        return [*front(words[:count]), within(numbers_in(words[count:]), low, high)]

    return read


def pairs(most: int, last: int, size: int) -> Form:
    """K up to `most`, and K pairs: indices up to `last`, which ascend, and numbers of this size."""

    def read(words: list[str]) -> list[Any]:
        demand(1 <= len(words) <= 1 + 2 * most)
        count, *both = numbers_in(words)
        indices, numbers = within(both[::2], 0, last), within(both[1::2], -size, size)
        demand(len(both) == 2 * count and all(a < b for a, b in zip(indices, indices[1:])))
        return [list(zip(indices, numbers))]

    return read


def amounts(words: list[str]) -> list[Any]:
    """A bidder, and pairs of a node and an amount: at least one pair, and no amount is 0."""
    demand(len(words) >= 4)
    (found,) = AMOUNTS(words[1:])
    demand(all(amount != 0 for _, amount in found))
    return [BIDDER(words[0]), found]


def settings(words: list[str]) -> list[Any]:
    """Six numbers, or seven."""
    demand(len(words) in (len(SETTINGS) - 1, len(SETTINGS)))
    return [reader(word) for reader, word in zip(SETTINGS, words)]


def submission(words: list[str]) -> list[Any]:
    """A name, K and K lower values, L and L upper ones."""
    demand(len(words) >= 3)
    name, count = NAME(words[0]), whole(0, 200)(words[1])
    lower, rest = words[2 : 2 + count], words[2 + count :]
    demand(len(rest) >= 1 and whole(0, 200)(rest[0]) == len(rest) - 1)
    values = [within(numbers_in(part), -(10**9), 10**9) for part in (lower, rest[1:])]
    return [name, *values]


NAME = spelled(32)
BIDDER, GOOD, NODE, FILE = whole(0, 39), whole(0, 31), whole(0, 199), whole(1, 21)
VALUE, TOTAL = size_up_to(10**9), size_up_to(4 * 10**14)
VIOLATION, DENOMINATOR = whole(0, 2**100), whole(1, 2**32)
AMOUNTS = pairs(200, 199, 2**20)
LEAF = exactly(GOOD, whole(1, 1000), VALUE, VALUE)
SETTINGS = [whole(0, 100), whole(0, 10**12), whole(1, 10**9), whole(0, 10**9), whole(0, 20)]
SETTINGS += [whole(0, 50_000), whole(1, 2000)]
KIND = one_of("assign", "regret", "session", "exchange", "prices")
ENDS = "assign", "exchange", "prices", "regret", "closed", "open", "spent", "limit"
STAGE, LIMIT = one_of("accuracy", "balance"), one_of("wide", "pivots", "rows", "den")

FORMS: dict[str, Form] = {
    "ice 1": exactly(KIND),
    "ice 2": exactly(one_of("regret", "session")),
    "ice 3": exactly(one_of("regret", "session")),
    "settings": settings,
    "good": exactly(NAME),
    "exact": exactly(NAME),
    "bidder": then_list(NAME, low=0, high=10**6),
    "node choose": exactly(NODE, NODE, NODE, VALUE, VALUE),
    "node buy": LEAF,
    "node sell": LEAF,
    "assign": exactly(),
    "settle": exactly(whole(0, 20)),
    "final": exactly(TOTAL),
    "rival": exactly(TOTAL),
    "provisional": exactly(TOTAL),
    "without": exactly(BIDDER, TOTAL),
    "set": exactly(bits),
    "branch": exactly(BIDDER, NODE),
    "leaf": then_list(low=-(2**56), high=2**56),
    "near": pairs(32, 31, 2**56),
    "derive": exactly(size_up_to(2**40)),
    "amounts": amounts,
    "tolled": pairs(300, 2031, 2**62),
    "dead": exactly(BIDDER),
    "regret": exactly(whole(0, 4 * 10**14)),
    "prices": then_list(DENOMINATOR, low=0, high=2**62),
    "accuracy": exactly(VIOLATION, DENOMINATOR),
    "balance": exactly(DENOMINATOR),
    "row": exactly(BIDDER, DENOMINATOR, bits),
    "submit": submission,
    "verdict accepted": exactly(),
    "verdict 40": exactly(NODE),
    "verdict 41": exactly(NODE),
    **{f"verdict {number}": exactly() for number in range(42, 47)},
    "threshold": exactly(fraction, fraction),
    "payment": exactly(NAME, whole(0, 10**15), fraction, fraction),
    "spent": exactly(TOTAL, whole(-(2**127), 2**127 - 1)),
    "limit": exactly(STAGE, LIMIT, VIOLATION, DENOMINATOR),
    "pool": exactly(BIDDER, bits),
    "end": exactly(one_of(*ENDS)),
    "refused": exactly(FILE, whole(1, 99), spelled(256)),
    "unread": exactly(FILE),
}


# The lines of a statement: records, and four lines of its own.
STATEMENT_FORMS = FORMS | {
    "statement": exactly(NAME),
    "kept": exactly(bits),
    "offered": exactly(bits),
    "end": exactly(one_of(*ENDS, "statement")),
}


def read_record(line: bytes, forms: dict[str, Form] = FORMS) -> Record:
    """The record that a line without its newline is; NoRecord where it is none."""
    try:
        demand(len(line) <= LONGEST_LINE)
        text = line.decode("ascii")
        demand(text.isprintable())
        words = text.split(" ")
        size = 1 if words[0] in forms else 2
        form = " ".join(words[:size])
        return Record(form, forms[form](words[size:]))
    except (ValueError, KeyError) as fault:
        raise NoRecord from fault
