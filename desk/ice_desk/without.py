"""A market made of a journal's last bounds, with all its bidders or without one of them."""
from __future__ import annotations

from typing import Any

from ice_page.journal import Bounds, Journal, Node

Json = dict[str, Any]


def market_of(journal: Journal, left_out: int | None, rounds: int) -> Json:
    """The market of the bounds with which the last settlement began, with so many rounds."""
    goods = [good.name for good in journal.goods]
    bidders = [
        {
            "name": bidder.name,
            "own": {good: count for good, count in zip(goods, bidder.owned) if count},
            "tree": tree_of(bidder.nodes, 0, goods, bounds),
        }
        for number, (bidder, bounds) in enumerate(zip(journal.bidders, journal.last.bounds))
        if number != left_out
    ]
    return {
        "settings": {**journal.settings.members(), "rounds": rounds},
        "goods": [{"exact": good.name} if good.exact else good.name for good in journal.goods],
        "bidders": bidders,
    }


def tree_of(nodes: list[Node], number: int, goods: list[str], bounds: Bounds) -> Json:
    """A node with all below it, with these values."""
    node, (low, high) = nodes[number], bounds
    values = {"lo": low[number], "hi": high[number]}
    if node.kind != "choose":
        return {node.kind: goods[node.first], "units": node.second, **values}
    below = [tree_of(nodes, child, goods, bounds) for child in node.children]
    return {"choose": [node.first, node.second], **values, "of": below}


def rounds_left(journal: Journal) -> int:
    """How many rounds a session has left: none where it has closed."""
    if journal.end.word == "closed":
        return 0
    return max(0, journal.settings.rounds - journal.last.number)
