#!/usr/bin/env python3
"""Tries drawn bids in the kit, and compares all that it says of them with `page/` and the program.

    kit/tests/drawn.py N [FIRST]

N bids are drawn from the seeds from FIRST on, 0 if it isn't told. Of each bid the kit's verdict, both
rules with their sets and amounts, and its table of sets at the prices have to be those that
`page/ice-nets` reckons with. The bids stand in statements of drawn trees, prices and provisional
sets, four rounds in each; `recheck/ice-reaudit` has to say yes to each statement with the kit's
verdicts, and so has `ice audit`, where a built program is there, which judges each bid. It wants
node, and ends with 1 where something differs.
"""
from __future__ import annotations

import random
import subprocess
import sys
from fractions import Fraction
from functools import reduce
from math import gcd, lcm
from pathlib import Path
from typing import Any, Iterator, NamedTuple

HERE = Path(__file__).resolve().parent
sys.path.insert(0, str(HERE))

from support import NODE, PROGRAM, asked, encoded  # noqa: E402

from ice_page.journal import Bidder, Bounds, Node  # noqa: E402
from ice_page.nets import ALL, AMONG, BEHIND, FIRST, OPEN, SURE, table_of  # noqa: E402
from ice_page.rules import Offer  # noqa: E402
from ice_recheck.statements import audit  # noqa: E402

ROUNDS, MOST_BIDS, AT_ONCE = 4, 9, 50
STATES = {SURE: "sure", OPEN: "open", BEHIND: "behind"}
EXTENTS = {ALL: "all", FIRST: "first", AMONG: "among"}
FRONT = "settle {number}\nregret 1\nkept {kept}\n"


class Drawn(NamedTuple):
    """A statement that was drawn: its rounds, its text with no verdict, and the yes due to it.

    Of a round it has what it begins with and its bids. Where a verdict is due the text has None.
    """

    seed: int
    goods: int
    rounds: list[tuple[Offer, list[Bounds]]]
    parts: list[str | None]
    yes: str


def drawn_tree(draw: random.Random, most: int, goods: int) -> list[Node]:
    """A tree of about so many nodes, most of its leaves purchases."""
    nodes: list[Node] = []
    sells = draw.choice([0.0, 0.0, 0.2, 0.8])

    def grow(up: int | None, depth: int) -> int:
        is_leaf = depth > 1 and (depth > 4 or len(nodes) >= most or draw.random() < 0.45)
        kind = ("sell" if draw.random() < sells else "buy") if is_leaf else "choose"
        node = Node(len(nodes), kind, draw.randrange(goods), draw.choice([1, 1, 2, 5]), up, depth)
        nodes.append(node)
        if not is_leaf:
            node.children = [grow(node.number, depth + 1) for _ in range(draw.randrange(1, 5))]
            node.first = draw.randrange(len(node.children) + 1)
            node.second = draw.randrange(node.first, len(node.children) + 1)
        return node.number

    grow(None, 1)
    return nodes


def drawn_set(draw: random.Random, nodes: list[Node]) -> str:
    """A satisfied set; sometimes none of its nodes."""
    inside: set[int] = set()
    todo = [0] if draw.random() < 0.8 else []
    while todo:
        node = nodes[todo.pop()]
        inside.add(node.number)
        if node.kind == "choose":
            todo += draw.sample(node.children, draw.randrange(node.first, node.second + 1))
    return "".join("01"[node.number in inside] for node in nodes)


def drawn_bounds(draw: random.Random, nodes: list[Node]) -> Bounds:
    """Opening intervals: most nodes of no value, and few of the others settled."""
    scale = draw.choice([3, 10, 100, 10**6])
    low, high = [], []
    for node in nodes:
        least = draw.randrange(scale) if draw.random() < 0.6 else 0
        width = draw.choice([0, 1, scale // 3, scale, scale, scale]) if least else 0
        is_below = node.kind == "sell" or draw.random() < 0.1
        low.append(-least - width if is_below else least)
        high.append(-least if is_below else least + width)
    return low, high


def drawn_prices(draw: random.Random, goods: int, bounds: Bounds) -> list[Fraction]:
    """Prices by which units cost about as much as they are worth, or less."""
    most = max(2, *(abs(low) for low in bounds[0]), *(abs(high) for high in bounds[1])) // draw.choice([1, 2, 4, 8]) + 1
    bottom = draw.choice([1, 1, 6, 210])
    return [Fraction(draw.randrange(most * bottom), bottom) for _ in range(goods)]


def narrowed(draw: random.Random, bounds: Bounds) -> Bounds:
    """Intervals inside these: some or all are narrower, by a little or by much, or settled."""
    low, high = [], []
    share, left = draw.choice([0.1, 0.3, 0.6, 1.0]), draw.choice([0.0, 0.3, 0.6, 0.8, 0.9])
    for least, most in zip(*bounds):
        width = int((most - least) * left)
        start = draw.randint(least, most - width)
        is_same = draw.random() > share
        low.append(least if is_same else start)
        high.append(most if is_same else start + width)
    return low, high


def drawn_bid(draw: random.Random, bounds: Bounds) -> Bounds:
    """A bid: one in ten is at fault before any rule, or says nothing new."""
    low, high = narrowed(draw, bounds)
    place = draw.randrange(len(low))
    way = draw.randrange(50)
    if way == 0:
        low[place] -= draw.choice([1, 2])
    elif way == 1:
        high[place] += draw.choice([1, 2])
    elif way == 2:
        low[place] = high[place] + 1
    elif way == 3:
        low.pop()
    elif way == 4:
        low, high = list(bounds[0]), list(bounds[1])
    return low, high


def record(*words: object) -> str:
    """A line of a statement."""
    return " ".join(map(str, words)) + "\n"


def section(bidder: Bidder, goods: int, bounds: Bounds, improve: int) -> str:
    """A statement up to its settlements."""
    lines = [record("statement", bidder.name), record("settings", 50, 0, 10**9, improve, ROUNDS, 0)]
    lines += [record("good", f"g{good}") for good in range(goods)]
    lines.append(record("bidder", bidder.name, *bidder.owned))
    for node, low, high in zip(bidder.nodes, *bounds):
        counts = [node.first, node.second] + [len(node.children)] * (node.kind == "choose")
        lines.append(record("node", node.kind, *counts, low, high))
    return "".join(lines)


def price_record(prices: list[Fraction]) -> str:
    """The record of prices."""
    bottom = reduce(lcm, (price.denominator for price in prices))
    tops = [int(price * bottom) for price in prices]
    assert reduce(gcd, tops, bottom) == 1
    return record("prices", bottom, *tops)


def drawn_statement(seed: int) -> Drawn:
    """A statement of some rounds, drawn from a seed."""
    draw = random.Random(seed)
    goods = draw.choice([1, 2, 3, 6])
    nodes = drawn_tree(draw, draw.choice([1, 6, 8, 12, 12, 16, 16, 40]), goods)
    bidder = Bidder("b", [10**6] * goods, nodes)
    bounds = drawn_bounds(draw, nodes)
    improve = draw.choice([0, 1, 5, 50])
    parts: list[str | None] = [section(bidder, goods, bounds, improve)]
    rounds = []
    for number in range(ROUNDS):
        kept, offered = drawn_set(draw, nodes), drawn_set(draw, nodes)
        prices = drawn_prices(draw, goods, bounds)
        parts.append(FRONT.format(number=number, kept=kept))
        parts.append(record("offered", offered) + price_record(prices))
        offer = Offer(bidder, bounds, prices, offered, improve)
        bids = []
        for _ in range(draw.randrange(1, MOST_BIDS)):
            low, high = drawn_bid(draw, bounds)
            bids.append((low, high))
            parts += [record("submit", bidder.name, len(low), *low, len(high), *high), None]
            if offer.judge(low, high)[0] == "accepted":
                bounds = low, high
                break
        rounds.append((offer, bids))
    kept = drawn_set(draw, nodes)
    worth = sum(low for low, bit in zip(bounds[0], kept) if bit == "1")
    parts.append(FRONT.format(number=ROUNDS, kept=kept))
    parts.append(record("threshold", "0/1", "0/1"))
    parts.append(record("payment", bidder.name, 0, "0/1", f"{worth}/1") + "end statement\n")
    return Drawn(seed, goods, rounds, parts, f"yes {worth}/1")


def question(offer: Offer, goods: int, bid: Bounds) -> dict[str, Any]:
    """What the kit is asked of a bid."""
    nodes = [
        {"kind": node.kind, "first": node.first, "second": node.second, "parent": node.up}
        | {"depth": node.depth, "children": node.children}
        for node in offer.bidder.nodes
    ]
    numerators = [str(int(price * offer.scale)) for price in offer.prices]
    prices = {"denominator": str(offer.scale), "numerators": numerators}
    begun = {"nodes": nodes, "low": offer.bounds[0], "high": offer.bounds[1], "prices": prices}
    begun |= {"provisional": offer.provisional, "improve": offer.improve}
    return {"kind": "try", "offer": begun, "goods": goods, "lower": bid[0], "upper": bid[1]}


def spelled(amount: Fraction) -> dict[str, str]:
    """An amount as the kit spells it."""
    return {"top": str(amount.numerator), "bottom": str(amount.denominator)}


def due(offer: Offer, goods: int, bid: Bounds) -> dict[str, Any]:
    """What the kit has to say of a bid, reckoned by `page/`."""
    verdict, node = offer.judge(*bid)
    found: dict[str, Any] = {"verdict": verdict, "node": node}
    if verdict not in ("accepted", "42", "43"):
        return found | {"table": None}
    first, second = offer.first_rule(bid), offer.second_rule(bid)
    found["first"] = {"holds": first.holds, "wanted": first.wanted}
    if not first.holds:
        found["first"] |= {"other": first.other, "gap": spelled(first.gap)}
    amounts = ("before", "now", "most", "gain")
    found["second"] = {name: spelled(getattr(second, name)) for name in amounts}
    found["second"] |= {"holds": second.holds, "other": offer.lack(bid)[0]}
    judged = Offer(offer.bidder, bid, offer.prices, offer.provisional, offer.improve)
    table = table_of(judged, goods)
    rows = [
        {"bits": row.bits, "units": row.units, "cost": spelled(row.cost)}
        | {"least": spelled(row.least), "most": spelled(row.most)}
        | {"state": STATES[row.state], "isProvisional": row.is_provisional}
        for row in table.rows
    ]
    extent, sets = EXTENTS[table.extent], str(table.all_sets)
    found["table"] = {"rows": rows, "extent": extent, "sets": sets, "shares": table.shares}
    return found


def with_verdicts(drawn: Drawn, answers: Iterator[dict[str, Any]]) -> bytes:
    """The statement with the kit's verdicts, the next ones of these answers."""
    text = ""
    for part in drawn.parts:
        if part is None:
            answer = next(answers)
            part = record("verdict", answer["verdict"], *[answer["node"]] * (answer["node"] is not None))
        text += part
    return text.encode()


def by_program(statement: bytes) -> str:
    """What the program's audit says."""
    assert PROGRAM is not None
    command = [PROGRAM, "audit", "/dev/stdin"]
    ran = subprocess.run(command, input=statement, stdout=subprocess.PIPE, check=False)
    return ran.stdout.decode().removesuffix("\n")


class Tried(NamedTuple):
    """What came of some statements: how many there were, their bids' verdicts, and what differs."""

    statements: int
    verdicts: list[str]
    extents: list[str]
    faults: list[str]


def tried(every: list[Drawn]) -> Tried:
    """Tries all bids of these statements."""
    bids = [(drawn, offer, bid) for drawn in every for offer, own in drawn.rounds for bid in own]
    answers = asked(question(offer, drawn.goods, bid) for drawn, offer, bid in bids)
    faults = []
    for (drawn, offer, bid), answer in zip(bids, answers):
        expected = due(offer, drawn.goods, bid)
        if answer != expected:
            faults.append(f"seed {drawn.seed}, {bid}: {answer}, where {expected} is due")
    left = iter(answers)
    texts = [with_verdicts(drawn, left) for drawn in every]
    own = asked({"kind": "audit", "content": encoded(text)} for text in texts)
    for drawn, text, answer in zip(every, texts, own):
        lines = {"ice-reaudit": audit(text).line, "the kit": answer["line"]}
        if PROGRAM is not None:
            lines["ice audit"] = by_program(text)
        faults += [f"seed {drawn.seed}: {who} says {line}" for who, line in lines.items() if line != drawn.yes]
    tables = [answer["table"] for answer in answers if answer["table"]]
    verdicts = [answer["verdict"] for answer in answers]
    return Tried(len(every), verdicts, [each["extent"] for each in tables], faults)


def all_tried(count: int, first: int = 0) -> Iterator[Tried]:
    """What comes of so many bids, or as many more as the last statement has."""
    every: list[Drawn] = []
    while count > 0:
        every.append(drawn_statement(first))
        first, count = first + 1, count - sum(len(bids) for _, bids in every[-1].rounds)
        if count <= 0 or len(every) == AT_ONCE:
            yield tried(every)
            every = []


def main(words: list[str]) -> int:
    """Tries bids, and answers the status."""
    if not 1 <= len(words) <= 2 or not all(word.isdecimal() for word in words):
        print(__doc__.strip(), file=sys.stderr)
        return 2
    if NODE is None:
        print("drawn: no node is installed: apt-get install nodejs", file=sys.stderr)
        return 2
    statements, verdicts, extents, faults = 0, [], [], []
    for found in all_tried(*map(int, words)):
        statements += found.statements
        verdicts += found.verdicts
        extents += found.extents
        faults += found.faults
        print(*found.faults, sep="\n", end="\n" * bool(found.faults))
    counts = {verdict: verdicts.count(verdict) for verdict in sorted(set(verdicts))}
    audits = "ice-reaudit and ice audit" if PROGRAM else "ice-reaudit; no built program is here"
    print(f"{len(verdicts)} bids in {statements} statements, audited by {audits}: {counts}")
    print(f"tables: { {extent: extents.count(extent) for extent in sorted(set(extents))} }")
    print(f"{len(faults)} differ")
    return int(bool(faults))


if __name__ == "__main__":
    sys.exit(main(sys.argv[1:]))
