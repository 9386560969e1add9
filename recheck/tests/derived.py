"""Journals of version 3 of small markets, drawn from seeds, with derived goods.

What is best is found by trying all assignments, and a bound by trying all sets; a log by bringing
the bound down by one rate at a time, with a branch where that isn't enough. Nothing of the second
opinion is used.
"""
from __future__ import annotations

import random
from itertools import combinations, product

SCALE = 4096
STEPS = [2**power for power in (16, 14, 13, 12, 11, 10, 9, 7, 4, 0)]
Node = tuple[int, int]  # of a bidder
Amounts = dict[Node, int]  # units, amounts or values
Net = tuple[int, list[int]]  # of a set its scaled value, and what it takes of all that has a rate


def total(amounts: Amounts, nodes: tuple[Node, ...]) -> int:
    """What is taken by these nodes, or their value."""
    return sum(amounts.get(node, 0) for node in nodes)


def bound(side: list[list[Net]], limits: list[int], rates: list[int]) -> int:
    """The bound of a side, of which each bidder has some sets."""
    scaled = sum(map(int.__mul__, rates, limits))
    for sets in side:
        scaled += max(value - sum(map(int.__mul__, rates, taken)) for value, taken in sets)
    return scaled // SCALE


def tolled(before: list[int], rates: list[int]) -> str:
    """The leaf with these rates."""
    changes = [index for index, rate in enumerate(rates) if rate != before[index]]
    return f"tolled {len(changes)}" + "".join(f" {index} {rates[index]}" for index in changes)


class Market:
    """A drawn market: goods, the satisfied sets of each bidder, and the lines of its journal."""

    def __init__(self, seed: int) -> None:
        self.draw = random.Random(seed)
        self.exact = [self.draw.randrange(4) == 0 for _ in range(self.draw.choice([1, 1, 2]))]
        self.amounts: list[Amounts] = [{} for _ in self.exact]  # of goods, then of derived ones
        self.limits = [0] * len(self.exact)
        self.lower: Amounts = {}
        self.upper: Amounts = {}
        self.sets: list[list[tuple[Node, ...]]] = []
        words = ["exact" if exact else "good" for exact in self.exact]
        self.lines = [f"{word} G{good}" for good, word in enumerate(words)]
        for number in range(self.draw.choice([3, 3, 4])):
            self.add_bidder(number, self.draw.randint(1, 3))
        every = [sum(sets, ()) for sets in product(*self.sets)]
        self.feasible = [nodes for nodes in every if self.is_feasible(nodes)]

    def add_bidder(self, bidder: int, count: int) -> None:
        """A bidder, whose tree is one leaf or a choice among some; the first bidder sells."""
        most = self.draw.randint(1, count)
        least, root = self.draw.randint(0, most), () if count == 1 else ((bidder, 0),)
        leaves = [(bidder, len(root) + leaf) for leaf in range(count)]
        self.lines.append(f"bidder b{bidder}" + f" {0 if bidder else 9}" * len(self.exact))
        self.lines += [f"node choose {least} {most} {count} 0 0"] if root else []
        sizes = range(least, most + 1) if root else [1]
        chosen = [nodes for size in sizes for nodes in combinations(leaves, size)]
        self.sets.append([(), *[root + nodes for nodes in chosen]])
        for leaf in leaves:
            good, units = self.draw.randrange(len(self.exact)), self.draw.randint(1, 3)
            low = units * self.draw.randint(3, 9) if bidder else -self.draw.randint(0, 4)
            self.lower[leaf], self.upper[leaf] = low, low + self.draw.choice([0, 0, 0, 1, 4])
            self.amounts[good][leaf] = units if bidder else -units
            word = "buy" if bidder else "sell"
            self.lines.append(f"node {word} {good} {units} {low} {self.upper[leaf]}")

    def is_feasible(self, nodes: tuple[Node, ...]) -> bool:
        """Whether an assignment takes no more of a good than there is."""
        taken = [total(amounts, nodes) for amounts in self.amounts]
        return all(one == 0 or one < 0 and not exact for one, exact in zip(taken, self.exact))

    def side(self, values: Amounts, fixed: dict[Node, bool]) -> list[list[Net]]:
        """The sets of each bidder that have, or don't have, what is fixed."""
        found: list[list[Net]] = []
        for bidder, sets in enumerate(self.sets):
            marks = [(node, mark) for node, mark in fixed.items() if node[0] == bidder]
            met = [nodes for nodes in sets if all((node in nodes) == mark for node, mark in marks)]
            taken = [[total(amounts, nodes) for amounts in self.amounts] for nodes in met]
            found.append([(SCALE * total(values, nodes), own) for nodes, own in zip(met, taken)])
        return found

    def descend(self, side: list[list[Net]], target: int) -> list[int]:
        """Multipliers and tolls, by one step after another that brings the bound down."""
        rates = [0] * len(self.limits)
        least = bound(side, self.limits, rates)
        for step, index, sign in product(STEPS, range(len(rates)), (1, -1)):
            is_free = index < len(self.exact) and self.exact[index]
            while least > target and (is_free or rates[index] + sign * step >= 0):
                rates[index] += sign * step
                found = bound(side, self.limits, rates)
                if found >= least:
                    rates[index] -= sign * step
                    break
                least = found
        return rates

    def put_log(self, values: Amounts, target: int, start: dict[Node, bool]) -> None:
        """The log which shows that no assignment from this start is worth more than the target."""
        sides, before = [start], [0] * len(self.limits)
        while sides:
            fixed = sides.pop()
            side = self.side(values, fixed)
            if [] in side:
                self.lines.append(f"dead {side.index([])}")
                continue
            rates = self.descend(side, target)
            if bound(side, self.limits, rates) > target:
                every = {node for sets in self.sets for nodes in sets for node in nodes}
                node = self.draw.choice(sorted(every - fixed.keys()))
                self.lines.append(f"branch {node[0]} {node[1]}")
                sides += [{**fixed, node: False}, {**fixed, node: True}]
                continue
            self.lines.append(tolled(before, rates))
            before = rates

    def put_amounts(self, limit: int, amounts: Amounts) -> None:
        """What stands before the log of a derived good."""
        self.lines.append(f"derive {limit}")
        for bidder in range(len(self.sets)):
            own = sorted(node for node, amount in amounts.items() if node[0] == bidder and amount)
            pairs = "".join(f" {node[1]} {amounts[node]}" for node in own)
            self.lines += [f"amounts {bidder} {len(own)}{pairs}"] if own else []

    def put_derived(self) -> None:
        """A derived good: parts of a good's units, rounded down, and here and there one more."""
        good, size = self.draw.randrange(len(self.exact)), self.draw.randint(1, 3)
        rates = [0] * len(self.limits)
        rates[good] = -(-SCALE * self.draw.randint(1, size) // size)
        amounts = {node: rates[good] * units // SCALE for node, units in self.amounts[good].items()}
        amounts = {**amounts, self.sets[1][1][-1]: 1}
        limit = bound(self.side(amounts, {}), self.limits, rates)
        for node in self.lower:
            raised = {**amounts, node: amounts.get(node, 0) + 1}
            is_kept = bound(self.side(raised, {}), self.limits, rates) == limit
            amounts = raised if is_kept and self.draw.randrange(2) else amounts
        if self.draw.randrange(3) == 0:
            limit = max(total(amounts, nodes) for nodes in self.feasible)
        self.put_amounts(limit, amounts)
        self.put_log(amounts, limit, {})
        self.amounts.append(amounts)
        self.limits.append(limit)

    def put_group(self, head: str, values: Amounts, start: dict[Node, bool]) -> tuple[Node, ...]:
        """Derived goods, and a best assignment from this start with its log."""
        for _ in range(self.draw.choice([0, 1, 1, 2])):
            self.put_derived()
        met = [nodes for nodes in self.feasible if start.keys().isdisjoint(nodes)]
        best = max(met, key=lambda nodes: total(values, nodes))
        self.lines.append(f"{head} {total(values, best)}")
        for bidder, sets in enumerate(self.sets):
            size = 1 + max(node for nodes in sets for _, node in nodes)
            bits = ("01"[(bidder, node) in best] for node in range(size))
            self.lines.append("set " + "".join(bits))
        self.put_log(values, total(values, best), start)
        return best


def with_head(kind: str, derived: int, lines: list[str]) -> list[str]:
    """The lines behind a head and settings with so many derived goods."""
    settings = "settings 50 1000 1000 1 0 50000" + (f" {derived}" if derived else "")
    return [f"ice 3 {kind}", settings, *lines]


def journal(seed: int) -> tuple[list[str], str]:
    """A journal's lines and its answer: of kind regret, or a session before what is paid."""
    market, is_session = Market(seed), seed % 2
    lines, lower = market.lines, market.lower
    lines += ["settle 0"] if is_session else []
    final = market.put_group("final", lower, {})
    perturbed = {node: (lower if node in final else market.upper)[node] for node in lower}
    rival = market.put_group("rival", perturbed, {})
    regret = total(perturbed, rival) - total(perturbed, final)
    lines.append(f"regret {regret}")
    for bidder in range(len(market.sets)) if is_session else ():
        market.put_group(f"without {bidder}", lower, {(bidder, 0): False})
    lines += [] if is_session else ["end regret"]
    derived = len(market.limits) - len(market.exact)
    lines = with_head("session" if is_session else "regret", derived, lines)
    return lines, f"no {len(lines) + 1} short" if is_session else f"yes {regret}"
