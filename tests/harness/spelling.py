"""Spellings of records: texts that are records, and texts that are none, by the table of forms."""
from __future__ import annotations

import functools
import itertools
import tomllib
from collections.abc import Iterable, Iterator, Sequence
from dataclasses import dataclass
from typing import Any

from harness.program import IS_ALL, TESTS

# Of texts that differ by a misspelling alone each twentieth is taken, from another one on in each
# field, so that each misspelling stands in some of them.
STEP = 1 if IS_ALL else 20

NO_NUMBERS = [
    *("", "-", "+", "-0", "+0", "00", "--1", "0x1", "1.0", "1e0", "1_0", "1,000", "one", "/", ":"),
    str(2**128 + 1),
]
BEFORE_NUMBERS = ["0", "+", "-0", "-+", "+-", "--", " ", "\t", "a"]
BEHIND_NUMBERS = [".0", "e0", "/1", ",", "-", " ", "\t", "a"]

# Bytes that stand in no line, but for the newline, which ends one.
OTHER_BYTES = "\0\x01\t\r\x1f\x7f\x80\xff"

BEFORE_RECORDS = [" ", "\t", "0 ", "a ", "-"]
BEHIND_RECORDS = [" ", "\t", "\r", "\x7f", "  0", " a", " 0/1"]
FURTHER = [" 0", " 1"]


@functools.cache
def table() -> dict[str, Any]:
    """The table of forms."""
    return tomllib.loads((TESTS / "records.toml").read_text())


@dataclass
class Texts:
    """Texts that are records, and texts that are none."""

    records: list[str]
    none: list[str]
    turn: int = 0

    def some(self, texts: Sequence[str]) -> None:
        """These, or each twentieth of them, are no records."""
        self.none += texts[self.turn % min(STEP, len(texts)) :: STEP]
        self.turn += 1


def in_turn(alphabet: str, count: int) -> str:
    """So many characters, which go round and round the alphabet."""
    return (alphabet * (count // len(alphabet) + 1))[:count]


@dataclass(frozen=True)
class Slot:
    """A field of a record, what it may be, and where the texts go."""

    fields: Sequence[str]
    place: int
    to: Texts

    def with_(self, values: Iterable[str]) -> list[str]:
        """The record with each of these in the place of the field."""
        front, behind = self.fields[: self.place], self.fields[self.place + 1 :]
        return [" ".join([*front, value, *behind]) for value in values]

    def takes(self, *values: str) -> None:
        """The field may be each of these."""
        self.to.records += self.with_(values)

    def refuses(self, *values: str) -> None:
        """The field may be none of these."""
        self.to.none += self.with_(values)

    def misspells(self, values: Iterable[str]) -> None:
        """The field may be none of these, of which some are tried."""
        self.to.some(self.with_(values))

    def word(self) -> None:
        """The word alone: not in capitals, nor with a letter more or less."""
        word = self.fields[self.place]
        self.takes(word)
        near = ["", word.upper(), word + "s", "a" + word, word[1:], word[:-1]]
        self.misspells(other for other in near if other != word)

    def number(self, least: int, greatest: int) -> None:
        """Numbers from the least to the greatest, in their one spelling."""
        self.takes(str(least), str(greatest))
        self.refuses(str(least - 1), str(greatest + 1))
        self.misspells(NO_NUMBERS)
        for limit in (str(least), str(greatest)):
            self.misspells(sign + limit.removeprefix("-") for sign in BEFORE_NUMBERS)
            self.misspells(limit + end for end in BEHIND_NUMBERS)

    def one_of(self, may: Sequence[str], no: Sequence[str]) -> None:
        """One of the first texts, and none of the others."""
        self.takes(*may)
        self.misspells([*no, ""])

    def characters(self, alphabet: str, most: int) -> None:
        """Characters of this alphabet: at least one, at most so many, and no other byte."""
        self.takes(in_turn(alphabet, most), *alphabet)
        self.takes(*(alphabet[0] + letter + alphabet[0] for letter in alphabet))
        self.refuses("", in_turn(alphabet, most + 1))
        others = [chr(byte) for byte in range(256) if byte != 10 and chr(byte) not in alphabet]
        self.misspells(others[::2])
        self.misspells(alphabet[0] + other + alphabet[0] for other in others[1::2])

    def try_as(self, what: str) -> None:
        """Texts with what the field may be, and with what it may not be."""
        kinds = table()
        if what == "word":
            self.word()
        elif what in kinds["numbers"]:
            self.number(*kinds["numbers"][what])
        elif what in kinds["characters"]:
            self.characters(*kinds["characters"][what])
        else:
            self.one_of(**kinds["texts"][what])


def forms() -> Iterator[tuple[str, list[str], bool]]:
    """A record of each form, what its fields may be, and whether it may have a further one."""
    for name, has_more in (("closed", False), ("lists", True)):
        for text, fields in table()[name].items():
            yield text, fields.split(), has_more


def of_fields() -> Texts:
    """Each record with each of its fields at its limits, past them, and misspelt."""
    texts = Texts([], [])
    longer = ((text, kinds.split()) for text, kinds in table()["longer"].items())
    for text, kinds in [*((text, kinds) for text, kinds, _ in forms()), *longer]:
        fields = text.split(" ")
        assert len(fields) == len(kinds), text
        for place, what in enumerate(kinds):
            Slot(fields, place, texts).try_as(what)
    return texts


def of_whole_records() -> Texts:
    """Each record, and the same with a byte that stands in no line at any place, another one at
    each; cut before any of its spaces, with a space more or less, and with something before it or
    behind it."""
    texts = Texts([], list(table()["none"]["lines"]))
    for text, _, has_more in forms():
        texts.records.append(text)
        others = itertools.cycle(OTHER_BYTES)
        texts.some([text[:at] + next(others) + text[at + 1 :] for at in range(len(text))])
        for space in (at for at, letter in enumerate(text) if letter == " "):
            front, rest = text[:space], text[space + 1 :]
            texts.some([front, f"{front}  {rest}", front + rest])
        texts.some([before + text for before in BEFORE_RECORDS])
        texts.some([text + behind for behind in BEHIND_RECORDS])
        if not has_more:
            texts.some([text + further for further in FURTHER])
    return texts


def listed(head: str, what: str) -> Texts:
    """From 1 to 32 numbers behind the head."""
    least, greatest = table()["numbers"][what]
    texts = Texts([], [head, f"{head} "])
    for number in (f" {least}", f" {greatest}"):
        texts.records += [head + number, head + number * 32]
        texts.none.append(head + number * 33)
    front = head + f" {least}" * 31
    texts.records.append(f"{front} {greatest}")
    texts.none += [f"{front} {least - 1}", f"{front} {greatest + 1}", f"{front} "]
    return texts


# What a submission says is the number of its lower values, how many it has, and the same of its
# upper ones.
SUBMISSIONS = [
    *(("0", 0, "0", 0), ("1", 1, "2", 2), ("2", 2, "1", 1)),
    *(("200", 200, "0", 0), ("0", 0, "200", 200), ("200", 200, "200", 200)),
]
NO_SUBMISSIONS = [
    *(("201", 201, "0", 0), ("0", 0, "201", 201), ("1", 0, "0", 0), ("0", 0, "1", 0)),
    *(("1", 2, "0", 0), ("2", 1, "0", 0), ("0", 0, "1", 2), ("0", 0, "2", 1)),
    *(("0", 1, "0", 0), ("0", 0, "0", 1), ("200", 199, "200", 200), ("200", 200, "200", 199)),
    *(("200", 200, "200", 201), ("-1", 0, "0", 0), ("0", 0, "-1", 0), ("-0", 0, "0", 0)),
    *(("0", 0, "-0", 0), ("01", 1, "0", 0), ("0", 0, "+1", 1), ("", 0, "0", 0)),
]


def submission(name: str, counts: tuple[str, int, str, int], value: int) -> str:
    """A submission with so many values."""
    low_count, lows, high_count, highs = counts
    return f"submit {name} {low_count}{f' {value}' * lows} {high_count}{f' {value}' * highs}"


def of_submissions() -> Texts:
    """The counts are from 0 to 200, and so many values stand behind each."""
    least, greatest = table()["numbers"]["value"]
    texts = Texts([], [])
    for name in ("s", "abcdefghijklmnopqrstuvwxyz-._012"):
        for value in (least, greatest):
            texts.records += [submission(name, counts, value) for counts in SUBMISSIONS]
            texts.none += [submission(name, counts, value) for counts in NO_SUBMISSIONS]
    front = "submit s 0 200" + " 7" * 199
    texts.records += [f"{front} {least}", f"{front} {greatest}"]
    texts.none += [f"{front} {least - 1}", f"{front} {greatest + 1}"]
    return texts


@dataclass(frozen=True)
class Pairs:
    """A record that ends with a count and so many pairs, the first numbers of which ascend."""

    head: str
    least: int  # pairs
    most: int
    last: int  # the greatest first number
    seconds: str  # what the second numbers may be, in the table

    def text(self, count: int | str, firsts: Iterable[int], second: int) -> str:
        """The record with this count and these pairs."""
        return f"{self.head} {count}" + "".join(f" {first} {second}" for first in firsts)

    def lists(self) -> list[tuple[int, Sequence[int]]]:
        """Counts, and first numbers that may stand behind them."""
        most, end = self.most, self.last + 1
        ends = [(count, range(end - count, end)) for count in (1, 2, most - 1, most)]
        return [*ends, (1, [0]), (2, [0, self.last]), (3, [1, 2, self.last - 1]), (most, range(most))]

    def no_lists(self) -> list[tuple[int | str, Sequence[int]]]:
        """Counts, and first numbers that may not."""
        most, last = self.most, self.last
        counts: list[int | str] = [most - 1, most + 1, f"0{most}", f"+{most}", -1, ""]
        return [
            *((count, range(most)) for count in counts),
            *((most, range(count)) for count in (0, 1, most - 1)),
            *((count, []) for count in range(1 if self.least == 0 else 0, 2)),
            *((0, [0]), (1, [0, 1]), (2, [0]), (most + 1, range(most + 1))),
            *((1, [last + 1]), (2, [0, last + 1]), (most, range(last + 2 - most, last + 2))),
            *((2, [1, 0]), (2, [5, 5]), (2, [last, last - 1])),
            *((3, [0, 2, 1]), (3, [0, 1, 0]), (3, [0, 1, 1])),
        ]

    def texts(self) -> Texts:
        """Between the least and the most pairs stand behind their count, and they ascend."""
        texts = Texts([self.text(0, [], 0)] if self.least == 0 else [], [])
        for number in table()["numbers"][self.seconds]:
            texts.records += [self.text(*pairs, number) for pairs in self.lists()]
            texts.none += [self.text(*pairs, number) for pairs in self.no_lists()]
        return texts


# An amount is never 0, and any other number may be.
PAIRS = (
    Pairs("near", 0, 32, 31, "multiplier"),
    Pairs("amounts 39", 1, 200, 199, "amount"),
    Pairs("tolled", 0, 300, 2031, "toll"),
)


def of_amounts() -> Texts:
    """Amounts of 0 are none, wherever they stand; changes to 0, and tolls of 0, are some."""
    ones = " ".join(f"{node} 1" for node in range(199))
    return Texts(
        ["near 2 0 0 31 0", "tolled 2 0 0 2031 0", f"amounts 0 200 {ones} 199 -1"],
        [
            *("amounts 0 1 0 0", "amounts 0 2 0 0 1 5", "amounts 0 2 0 5 1 0"),
            *(f"amounts 0 200 {ones} 199 0", "amounts 0 1 0 -0"),
        ],
    )
