"""Small trees drawn from a seed, and what is found of them by trying everything."""
from __future__ import annotations

import random
from itertools import product

import support  # noqa: F401

from ice_page.journal import Node


def drawn_tree(draw: random.Random, most: int) -> list[Node]:
    """A tree of about so many nodes, with choices of any bounds and leaves of two goods."""
    nodes: list[Node] = []

    def grow(up: int | None, depth: int) -> int:
        is_leaf = up is not None and (depth > 3 or len(nodes) >= most or draw.random() < 0.5)
        kind = draw.choice(["buy", "sell"]) if is_leaf else "choose"
        node = Node(len(nodes), kind, draw.randrange(2), draw.randrange(1, 4), up, depth)
        nodes.append(node)
        if not is_leaf:
            node.children = [grow(node.number, depth + 1) for _ in range(draw.randrange(1, 4))]
            node.first = draw.randrange(len(node.children) + 1)
            node.second = draw.randrange(node.first, len(node.children) + 1)
        return node.number

    grow(None, 1)
    return nodes


def is_satisfied(nodes: list[Node], bits: str) -> bool:
    """Whether a set is, by the definition."""
    for node in nodes:
        if bits[node.number] == "0":
            continue
        if node.up is not None and bits[node.up] == "0":
            return False
        inside = sum(bits[child] == "1" for child in node.children)
        if node.kind == "choose" and not node.first <= inside <= node.second:
            return False
    return True


def all_sets(nodes: list[Node]) -> list[str]:
    """All satisfied sets, found by trying every list of bits."""
    every = ("".join(bits) for bits in product("01", repeat=len(nodes)))
    return [bits for bits in every if is_satisfied(nodes, bits)]


def profiles(low: list[int], high: list[int]) -> list[tuple[int, ...]]:
    """The ends of all intervals in each combination: a net that is linear is extreme at one."""
    return list(product(*({least, most} for least, most in zip(low, high))))
