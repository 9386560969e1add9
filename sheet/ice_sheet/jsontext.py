"""Files in JSON, read as `ice` reads them, so that what is taken here is no fault there."""
from __future__ import annotations

import json
import re
from collections import Counter
from dataclasses import dataclass
from typing import Any, NoReturn

from .faults import BadFile, shown
from .limits import FILE_LIMIT, front_of

MOST_DEPTH = 127
LOWEST, HIGHEST = -(2**63), 2**64 - 1
MARK = b"\xef\xbb\xbf"
SURROGATE = re.compile(r"\\u[dD][89a-fA-F]")


@dataclass(frozen=True, slots=True)
class NotWhole:
    """A number of JSON that isn't whole as `ice` reads it: `1.5`, `1.0`, `1e3`, `-0`."""

    text: str


class Twice(dict[str, Any]):
    """An object with a member that stands twice; the last of them stays, as `ice` reads it."""

    def __init__(self, pairs: list[tuple[str, Any]]) -> None:
        super().__init__(pairs)
        names = [name for name, _ in pairs]
        self.name = next(name for name, count in Counter(names).items() if count > 1)


def object_of(pairs: list[tuple[str, Any]]) -> dict[str, Any]:
    """An object of its members."""
    value = dict(pairs)
    return value if len(value) == len(pairs) else Twice(pairs)


def text_of(number: NotWhole) -> str:
    """What stands for a number that isn't whole where a value is written: its text."""
    return number.text


def real(text: str) -> NotWhole:
    """A number with a point or an exponent; ValueError where no double holds it."""
    if float(text) in (float("inf"), float("-inf")):
        raise ValueError(f"{shown(text)} is too large to be read")
    return NotWhole(text)


def integer(text: str) -> int | NotWhole:
    """A number of digits alone."""
    if text == "-0" or len(text) > 20 or not LOWEST <= int(text) <= HIGHEST:
        return real(text)
    return int(text)


def constant(text: str) -> NoReturn:
    """`NaN` and `Infinity`, which are no JSON."""
    raise ValueError(f"{text} is no JSON")


def depth(value: Any) -> int:
    """How many arrays and objects stand in one another at most."""
    if not isinstance(value, (dict, list)):
        return 0
    inner = value.values() if isinstance(value, dict) else value
    return 1 + max((depth(part) for part in inner if isinstance(part, (dict, list))), default=0)


def parse(data: bytes) -> Any:
    """The value of a text in JSON; BadFile where it is none."""
    if len(data) > FILE_LIMIT:
        raise BadFile(f"the file is longer than {FILE_LIMIT:,} bytes")
    if data.startswith(MARK):
        raise BadFile("no JSON: a byte order mark stands in front; leave it out")
    try:
        text = data.decode()
        value = json.loads(
            text,
            parse_int=integer,
            parse_float=real,
            parse_constant=constant,
            object_pairs_hook=object_of,
        )
        if SURROGATE.search(text):
            json.dumps(value, ensure_ascii=False, default=text_of).encode()
        levels = depth(value)
    except UnicodeDecodeError as fault:
        raise BadFile(f"no JSON: byte {fault.start + 1} is no UTF-8") from None
    except UnicodeEncodeError:
        raise BadFile("no JSON: half of a surrogate pair stands alone in a text") from None
    except RecursionError:
        raise BadFile("no JSON: it is nested too deeply") from None
    except ValueError as fault:
        raise BadFile(f"no JSON: {fault}") from None
    if levels > MOST_DEPTH:
        raise BadFile(f"no JSON: more than {MOST_DEPTH} arrays and objects in one another")
    return value


def read(file: str) -> Any:
    """The value of a file in JSON; BadFile names the file where it is none."""
    try:
        return parse(front_of(file))
    except BadFile as fault:
        raise BadFile(f"{file}: {fault}") from None


def kind(value: Any) -> str:
    """What a value of JSON is, in a word."""
    names = {dict: "an object", list: "an array", str: "a text", bool: "true or false"}
    return names.get(type(value), "null" if value is None else "a number")


def members(value: Any, wanted: tuple[str, ...], place: str) -> dict[str, Any]:
    """An object with exactly these members; BadFile names those that are missing or too many."""
    if not isinstance(value, dict):
        raise BadFile(f"{place}: {kind(value)} where an object is due")
    missing = [name for name in wanted if name not in value]
    other = [name for name in value if name not in wanted]
    if missing:
        raise BadFile(f"{place}: the member `{missing[0]}` is missing")
    if other:
        raise BadFile(f"{place}: the member {shown(other[0])} doesn't belong here")
    return value


def number(value: Any, low: int, high: int, place: str) -> int:
    """A whole number from low to high."""
    if isinstance(value, NotWhole):
        raise BadFile(f"{place}: {shown(value.text)} is no whole number: digits alone, as `10`")
    if not isinstance(value, int) or isinstance(value, bool):
        raise BadFile(f"{place}: {kind(value)} where a whole number is due")
    if not low <= value <= high:
        raise BadFile(f"{place}: {value} is not within {low:,} to {high:,}")
    return value
