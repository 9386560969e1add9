"""Files that are too long to lie here, made as the tests want them."""
from __future__ import annotations

import json
import re
from typing import Any

from harness.cases import shared

SETTINGS = {"weight": 50, "close_regret": 0, "cap": 100, "improve": 1, "rounds": 5, "branches": 200, "derived": 0}
SALE: dict[str, Any] = {"sell": "A", "units": 1, "lo": -10, "hi": -10}
PURCHASE: dict[str, Any] = {"buy": "A", "units": 1, "lo": 20, "hi": 30}
SELLER: dict[str, Any] = {"name": "s", "own": {"A": 1}, "tree": SALE}
BUYER: dict[str, Any] = {"name": "b", "own": {}, "tree": PURCHASE}

# The limits of files, in bytes.
EXCHANGE_BYTES = 16_777_216
JOURNAL_BYTES = 134_217_728


def exchange(*bidders: dict[str, Any], **members: object) -> bytes:
    """An exchange of these bidders in JSON."""
    whole: dict[str, Any] = {"settings": SETTINGS, "goods": ["A"], "bidders": bidders, **members}
    return json.dumps(whole).encode()


def nested(levels: int, tree: dict[str, Any]) -> dict[str, Any]:
    """A tree in so many choices of one out of one."""
    for _ in range(levels):
        tree = {"choose": [1, 1], "lo": 0, "hi": 0, "of": [tree]}
    return tree


def deep(levels: int) -> bytes:
    """An exchange whose seller's leaf lies below so many choices."""
    return exchange({**SELLER, "tree": nested(levels, SALE)}, BUYER)


def crowd(count: int) -> bytes:
    """An exchange of so many buyers."""
    return exchange(*({**BUYER, "name": f"b{number}"} for number in range(count)))


def wide(leaves: int) -> dict[str, Any]:
    """A tree with so many leaves that buy."""
    return {"choose": [0, min(leaves, 199)], "lo": 0, "hi": 0, "of": [PURCHASE] * leaves}


def packages(word: str, count: int) -> bytes:
    """Flat bids of one bidder with so many packages of one good."""
    rows = [{"lo": 0, "hi": number, "units": {"B": 1}} for number in range(count)]
    return exchange({"name": "b", "own": {}, word: rows}, goods=["A", "B"])


def bids(*rows: tuple[str, list[int], list[int]]) -> bytes:
    """A round file of these bids: a bidder, lower values and upper ones."""
    values = [{"bidder": bidder, "lo": lo, "hi": hi} for bidder, lo, hi in rows]
    return json.dumps({"bids": values}).encode()


def long_logs(more: str = "") -> bytes:
    """A regret of a buyer of one of 199 units, both of whose logs branch at each of its 200 nodes
    in turn; before the first of their 201 leaves stands this record."""
    head = [
        "ice 1 regret",
        "settings 50 0 100 1 5 200",
        "good A",
        "bidder b 0",
        "node choose 0 199 199 0 0",
        *["node buy 0 1 0 0"] * 199,
    ]
    branches = [f"branch 0 {node}" for node in range(200)]
    leaves = ["leaf 0"] * 201
    logs = []
    for group in ("final 0", "rival 0"):
        logs += [group, "set " + "0" * 200, *branches]
        logs += [more] if more else []
        logs += leaves
        more = ""
    return "".join(f"{line}\n" for line in [*head, *logs, "regret 0", "end regret"]).encode()


def long_session(version: int) -> bytes:
    """The session of two settlements with 400 submissions of a stranger in the place of one. Each
    has twice 200 values, all of which differ, so that no part of the 1.7 MB is like another."""
    rows = []
    for first in range(100_000_000, 100_160_000, 400):
        values = list(map(str, range(first, first + 400)))
        lists = " ".join(["200", *values[:200], "200", *values[200:]])
        rows.append(f"submit zz {lists}\nverdict 45\n")
    text = shared("rounds.session").replace("submit zz 1 1 1 2\nverdict 45\n", "".join(rows))
    if version == 2:
        # each log has one leaf, whose one multiplier was 0 before it
        text = text.replace("ice 1", "ice 2", 1).replace("leaf 0\n", "near 0\n")
        text = re.sub("(?m)^leaf ", "near 1 0 ", text)
    return text.encode()
