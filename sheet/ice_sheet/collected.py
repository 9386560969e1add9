"""The bids that are taken into a round, and those that are put aside."""
from __future__ import annotations

import json
import os
import re
from typing import Any

from . import jsontext
from .bids import Refusal, refusal_of
from .faults import BadFile, shown
from .limits import FILE_LIMIT, front_of
from .market import Market

MOST_BIDS, MOST_TOLD = 400, 20
SENT = re.compile(r"[0-9][0-9.:_T]*-([A-Za-z0-9_.-]{1,32})\.json")
UNNAMED = "the file's name is not of the form TIME-NAME.json, as 1405-choir.json, so it is nobody's"


class Collected:
    """The round of the bids that are taken, and for each other one a line and its text.

    With `is_named` a file is that of the bidder in its name, TIME-NAME.json, and has no bid of
    another one.
    """

    def __init__(self, market: Market, is_named: bool) -> None:
        self.market = market
        self.is_named = is_named
        self.taken: list[Any] = []
        self.lines: list[str] = []
        self.count_aside = 0
        self.texts: list[str] = []
        self.room = FILE_LIMIT
        self.places: dict[str, list[str]] = {}
        self.several: list[str] = []

    def add_file(self, file: str) -> None:
        """Takes the bids of a file, or puts them aside."""
        try:
            value = jsontext.parse(front_of(file))
        except BadFile as fault:
            self.put_aside(file, str(fault), None)
            return
        if not isinstance(value, dict) or value.keys() != {"bids"} or not is_list(value["bids"]):
            self.add(file, file, value)
            return
        before, bids = len(self.taken), value["bids"]
        if isinstance(value, jsontext.Twice):
            self.put_aside(file, twice(value), value)
        elif len(bids) > MOST_BIDS:
            self.put_aside(file, str(too_many(f"{len(bids)} bids: ")), None)
        else:
            self.add_round(file, bids)
        self.note_bidders(file, before)

    def add_round(self, file: str, bids: list[Any]) -> None:
        """Takes the bids of a round file, or puts them aside, with a line for the first ones."""
        before, told = self.count_aside, len(self.lines)
        for number, bid in enumerate(bids):
            self.add(file, f"{file}: bids.{number}", bid)
        if self.count_aside > before + MOST_TOLD:
            del self.lines[told + MOST_TOLD :]
            left = self.count_aside - before - MOST_TOLD
            self.lines.append(f"{file}: and {left} more put aside")

    def add(self, file: str, place: str, bid: Any) -> None:
        """Takes a bid, or puts it aside."""
        if reason := self.reason(file, bid):
            self.put_aside(place, reason, bid)
        else:
            self.taken.append(bid)
            self.places.setdefault(bid["bidder"], []).append(place)

    def reason(self, file: str, bid: Any) -> str:
        """Why a bid of a file is put aside; nothing where it is taken."""
        if self.is_named and (reason := stranger(file, bid)):
            return reason
        if isinstance(bid, jsontext.Twice):
            return twice(bid)
        refusal = refusal_of(bid, self.market)
        if not refusal and len(self.taken) == MOST_BIDS:
            refusal = too_many()
        return str(refusal or "")

    def put_aside(self, place: str, reason: str, bid: Any) -> None:
        """Puts a bid aside; `bid` is None where the file is no JSON, or has too many of them."""
        self.count_aside += 1
        self.lines.append(f"{place}: put aside: {reason}")
        text = json.dumps(bid, default=jsontext.text_of)
        if len(text) > self.room:
            text = "null"
        self.room -= len(text)
        where = f'"file": {json.dumps(place)}, "reason": {json.dumps(reason)}'
        self.texts.append(f'{{{where}, "bid": {text}}}')

    def note_bidders(self, file: str, before: int) -> None:
        """Notes a file in which bids of several bidders were taken."""
        names = list(dict.fromkeys(bid["bidder"] for bid in self.taken[before:]))
        if len(names) > 1:
            self.several.append(f"{file} has bids of {listed(names)}: --named tests who sent them")

    def notes(self) -> list[str]:
        """What to look at, where no sender is tested: files of several bidders, and several bids."""
        if self.is_named:
            return []
        again = [
            f"{name} has {len(places)} bids, in {listed(places)}: the first accepted one counts"
            for name, places in self.places.items()
            if len(places) > 1
        ]
        return front(self.several) + front(again)


def is_list(value: Any) -> bool:
    """Whether a value is an array."""
    return isinstance(value, list)


def stranger(file: str, bid: Any) -> str:
    """Why a bid isn't one of the bidder in its file's name; nothing where it is."""
    sent = SENT.fullmatch(os.path.basename(file))
    if not sent:
        return UNNAMED
    name = bid.get("bidder") if isinstance(bid, dict) else None
    if not isinstance(name, str) or name == sent[1]:
        return ""
    return f"the file is of `{sent[1]}`, and the bid of {shown(name)}"


def twice(value: jsontext.Twice) -> str:
    """What is said of an object with a member that stands twice."""
    return f"the member {shown(value.name)} stands twice, and only one can be meant"


def too_many(words: str = "") -> Refusal:
    """What is said where a round has too many bids."""
    return Refusal(4, "bids", f"{words}a round has at most {MOST_BIDS} bids")


def listed(names: list[str]) -> str:
    """Names in a row, the first three of them where they are more."""
    left = len(names) - 3
    return ", ".join(names[:3]) + (f" and {left} more" if left > 0 else "")


def front(lines: list[str]) -> list[str]:
    """The first of these lines, and how many more there are."""
    left = len(lines) - MOST_TOLD
    return lines[:MOST_TOLD] + [f"and {left} more of this kind"] * (left > 0)
