"""Damages files at random: bytes, lines, numbers and words."""
from __future__ import annotations

import functools
import re
from collections.abc import Callable, Mapping, Sequence
from random import Random

from harness.spelling import forms

EXTREMES = [
    *(0, 1, -1, 2, 99, 100, 101, 199, 200, 201, 300, 301, 999, 1000, 1001, 2031, 2032),
    *(50000, 50001, 2**20, 2**20 + 1, 2**40, 2**40 + 1, -(2**62)),
    *(10**6, 10**6 + 1, 10**9, 10**9 + 1, -(10**9), 10**12, 10**15, 4 * 10**14, 10**18),
    *(2**31, 2**32, 2**32 + 1, 2**53, 2**56, 2**56 + 1, -(2**56), 2**62, 2**63, 2**64, 2**100),
    *(2**126, 2**127 - 1, 2**127, -(2**127), 2**128, 10**60),
]
NUMBER = re.compile(rb"-?[0-9]+")
WORD = re.compile(rb"[^\s,:\[\]{}]+")
VALUES = [b"null", b"true", b"[]", b"{}", b'""', b'"A"', b"1.5", b"1e400", b"-0", b"[[[[]]]]"]


def places(pattern: re.Pattern[bytes], data: bytes, random: Random) -> slice | None:
    """A place in the data that fits the pattern."""
    found = [match.span() for match in pattern.finditer(data)]
    return slice(*random.choice(found)) if found else None


def put(data: bytes, place: slice, new: bytes) -> bytes:
    """The data with other bytes at a place."""
    return data[: place.start] + new + data[place.stop :]


def other_byte(data: bytes, random: Random) -> bytes:
    """Another byte in the place of one."""
    at = random.randrange(len(data) + 1)
    byte = random.choice([random.randrange(256), *b" \n01-"])
    return data[:at] + bytes([byte]) + data[at + 1 :]


def byte_more(data: bytes, random: Random) -> bytes:
    """A byte more."""
    at = random.randrange(len(data) + 1)
    return data[:at] + bytes([random.randrange(256)]) + data[at:]


def piece_out(data: bytes, random: Random) -> bytes:
    """A piece left out."""
    at = random.randrange(len(data) + 1)
    return data[:at] + data[at + random.choice([1, 1, 2, 8, 64, len(data)]) :]


def line_out(data: bytes, random: Random) -> bytes:
    """A line left out."""
    lines = data.splitlines(keepends=True)
    del lines[random.randrange(len(lines))]
    return b"".join(lines)


def line_twice(data: bytes, random: Random) -> bytes:
    """A line once more, there or elsewhere."""
    lines = data.splitlines(keepends=True)
    at = random.randrange(len(lines))
    to = random.choice([at, random.randrange(len(lines))])
    return b"".join([*lines[:to], lines[at], *lines[to:]])


def lines_swapped(data: bytes, random: Random) -> bytes:
    """Two lines, each in the other's place."""
    lines = data.splitlines(keepends=True)
    one, other = random.randrange(len(lines)), random.randrange(len(lines))
    lines[one], lines[other] = lines[other], lines[one]
    return b"".join(lines)


@functools.cache
def records() -> Sequence[bytes]:
    """A record of each form."""
    return [f"{text}\n".encode() for text, _, _ in forms()]


def record_put(data: bytes, random: Random) -> bytes:
    """A record of any form before a line, or in its place."""
    lines = data.splitlines(keepends=True)
    at = random.randrange(len(lines) + 1)
    lines[at : at + random.randrange(2)] = [random.choice(records())]
    return b"".join(lines)


def number_moved(data: bytes, random: Random) -> bytes:
    """A number a little more or less."""
    place = places(NUMBER, data, random)
    if place is None:
        return data
    step = random.choice([-64, -10, -2, -1, -1, 1, 1, 2, 10, 64])
    return put(data, place, b"%d" % (int(data[place]) + step))


def number_extreme(data: bytes, random: Random) -> bytes:
    """Another number in the place of one."""
    place = places(NUMBER, data, random)
    return data if place is None else put(data, place, b"%d" % random.choice(EXTREMES))


def word_moved(data: bytes, random: Random) -> bytes:
    """A word in the place of another one."""
    one, other = places(WORD, data, random), places(WORD, data, random)
    return data if one is None or other is None else put(data, one, data[other])


def value_put(data: bytes, random: Random) -> bytes:
    """A value of JSON in the place of a word."""
    place = places(WORD, data, random)
    return data if place is None else put(data, place, random.choice(VALUES))


def bits_changed(data: bytes, random: Random) -> bytes:
    """A bit of a set turned."""
    place = places(re.compile(rb"(?<=\nset )[01]+"), data, random)
    if place is None:
        return data
    at = random.randrange(place.start, place.stop)
    return data[:at] + (b"0" if data[at : at + 1] == b"1" else b"1") + data[at + 1 :]


# How often each damage is done, of their sum. Most files stay files, so that more than their first
# fault is looked at.
DAMAGES: Mapping[Callable[[bytes, Random], bytes], int] = {
    other_byte: 1,
    byte_more: 1,
    piece_out: 1,
    line_out: 2,
    line_twice: 2,
    lines_swapped: 2,
    record_put: 2,
    number_moved: 10,
    number_extreme: 3,
    word_moved: 3,
    value_put: 1,
    bits_changed: 6,
}


def damaged(data: bytes, random: Random) -> bytes:
    """The data with one to four damages, most often one."""
    for _ in range(random.choice([1, 1, 1, 2, 2, 3, 4])):
        if data.strip():
            damage = random.choices(list(DAMAGES), list(DAMAGES.values()))[0]
            data = damage(data, random)
    return data
