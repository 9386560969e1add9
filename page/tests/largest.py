"""A session at the limits: 32 goods, 40 bidders, 2,000 nodes, 20 rounds, names of 32 bytes.

    python3 page/tests/largest.py >FILE

Nobody ran it, and no checker would pass it; it has the order of a session and the greatest sizes.
"""
from __future__ import annotations

import random

GOODS, BIDDERS, NODES, ROUNDS, DEPTH = 32, 40, 2000, 20, 16
BIG = 10**9
TREES = [200] + [46] * 38 + [52]


def name(kind: str, number: int) -> str:
    """A name of 32 bytes."""
    return f"{kind}-{number:02}-".ljust(32, "x")


def chain(draw: random.Random) -> list[str]:
    """A tree of 16 levels of nodes, with two leaves at most of the levels."""
    low, high = -BIG, BIG
    lines = []
    for level in range(DEPTH - 1):
        leaves = 2 if level < DEPTH - 2 else 3
        deeper = level < DEPTH - 2
        lines.append(f"node choose 0 {leaves + deeper} {leaves + deeper} {low} {high}")
        for _ in range(leaves):
            lines.append(f"node buy {draw.randrange(GOODS)} {draw.randrange(1, 1001)} {low} {high}")
    return lines


def bundles(draw: random.Random, nodes: int) -> list[str]:
    """A tree of so many nodes, with bundles of three goods and single sales."""
    parts, left = [], nodes - 1
    while left:
        if left >= 5 and draw.random() < 0.7:
            low = draw.randrange(10**6, BIG)
            parts.append(
                [
                    f"node choose 3 3 3 {low} {low + draw.randrange(BIG - low)}",
                    *(f"node buy {good} 1 0 0" for good in draw.sample(range(GOODS), 3)),
                ]
            )
            left -= 4
        else:
            low = -draw.randrange(1, BIG)
            parts.append([f"node sell {draw.randrange(GOODS)} {draw.choice([1, 1, 1000])} {low} 0"])
            left -= 1
    return [
        f"node choose 0 {len(parts)} {len(parts)} 0 0",
        *(line for part in parts for line in part),
    ]


def trees(draw: random.Random) -> list[list[str]]:
    """The trees of all bidders."""
    found = [bundles(draw, nodes) for nodes in TREES]
    deep = chain(draw)
    found[1] = deep + []
    found[2] = bundles(draw, TREES[1] + TREES[2] - len(deep))
    return found


def sets(draw: random.Random, all_trees: list[list[str]]) -> list[str]:
    """Some nodes of each tree, whole bundles among them."""
    lines = []
    for tree in all_trees:
        bits, bundle = ["1"], False
        for line in tree[1:]:
            if not (bundle and line.endswith(" 1 0 0")):
                bundle = draw.random() < 0.3
            bits.append("1" if bundle else "0")
        lines.append("set " + "".join(bits))
    return lines


def submissions(
    draw: random.Random, all_trees: list[list[str]], bounds: list[list[list[int]]]
) -> list[str]:
    """A round: ten bids of each bidder, the last of them accepted."""
    lines = []
    for number, tree in enumerate(all_trees):
        for _ in range(9):
            verdict = draw.choice(["40 0", "41 1", "42", "43", "46"])
            lines += [f'submit {name("bidder", number)} 0 0', f"verdict {verdict}"]
        low, high = bounds[number]
        bounds[number] = [
            [(4 * a + c) // 5 for a, c in zip(low, high)],
            [(a + 4 * c + 4) // 5 for a, c in zip(low, high)],
        ]
        low, high = bounds[number]
        lines.append(
            f'submit {name("bidder", number)} {len(tree)} {" ".join(map(str, low))} '
            f'{len(tree)} {" ".join(map(str, high))}'
        )
        lines.append("verdict accepted")
    return lines


def largest_session(seed: int = 1) -> str:
    """The whole session."""
    draw = random.Random(seed)
    all_trees = trees(draw)
    lines = ["ice 2 session", f"settings 50 0 {BIG} {BIG} {ROUNDS} 50000"]
    lines += [
        f'{"exact" if number % 8 == 7 else "good"} {name("good", number)}'
        for number in range(GOODS)
    ]
    for number, tree in enumerate(all_trees):
        lines += [f'bidder {name("bidder", number)}' + " 1000000" * GOODS, *tree]
    bounds = [
        [[int(line.split()[-2]) for line in tree], [int(line.split()[-1]) for line in tree]]
        for tree in all_trees
    ]
    log = ["branch 0 0", "near 2 0 640 31 -72057594037927936", "dead 39"]
    for settlement in range(ROUNDS + 1):
        final, regret = 10**13 + settlement, 10**12 >> settlement
        lines += [
            f"settle {settlement}",
            f"final {final}",
            *sets(draw, all_trees),
            *log,
            f"rival {final + regret}",
            *sets(draw, all_trees),
            "near 0",
            f"regret {regret}",
        ]
        if settlement == ROUNDS:
            break
        lines += [
            "provisional 0",
            *sets(draw, all_trees),
            "near 0",
            "prices 4294967291 " + " ".join(str(draw.randrange(2**62)) for _ in range(GOODS)),
            "accuracy 0 1",
            "row 0 1 1",
            "balance 1",
            *submissions(draw, all_trees, bounds),
        ]
    for number in range(BIDDERS):
        lines += [f"without {number} 0", *sets(draw, all_trees), *log]
    lines.append("threshold 123456789/997 0/1")
    for number in range(BIDDERS):
        lines.append(
            f'payment {name("bidder", number)} {10**15 >> number % 20} '
            "123456789/997 -999999999999/997"
        )
    return "".join(f"{line}\n" for line in [*lines, "end closed"])


if __name__ == "__main__":
    print(largest_session(), end="")
