"""Derived goods, which journals of version 3 have: the first failed tests, reckoned by hand."""
from __future__ import annotations

import random
import unittest

import derived
from support import answer

from ice_recheck.journals import gap
from ice_recheck.statements import audit

SIX = "settings 50 0 100 1 0 100"
BUYERS = [line for name in "bcd" for line in (f"bidder {name} 0", "node buy 0 2 10 10")]
MARKET = ["good A", "bidder s 3", "node sell 0 3 0 0", *BUYERS]
SETS = ["set 1", "set 1", "set 0", "set 0"]
AMOUNTS = [f"amounts {bidder} 1 0 1" for bidder in (1, 2, 3)]
DERIVE = ["derive 1", *AMOUNTS]
PROVED = [*DERIVE, "tolled 1 0 2048"]
CLOSED = "tolled 1 1 40960"
GROUP = ["final 10", *SETS, CLOSED]
END = ["rival 10", *SETS, CLOSED, "regret 0", "end regret"]
END_OF_RANGE = 2**62

# A seller and a buyer of one unit: a session that closes, and one that goes on.
TRIVIAL = ["derive 1", "amounts 1 1 0 1", "tolled 0"]
BEFORE = ("final", "rival", "provisional", "without", "spent")
PAIR = ["good A", "bidder s 1", "node sell 0 1 {}", "bidder b 0", "node buy 0 1 {}", "settle 0"]
CLOSING = [line.format("-10 -10" if "sell" in line else "20 30") for line in PAIR]
for head, multiplier in (("final 10", 640), ("rival 10", 640)):
    CLOSING += [head, "set 1", "set 1", f"tolled 1 0 {64 * multiplier}"]
CLOSING += ["regret 0", "without 0 0", "set 0", "set 0", "tolled 1 0 81920"]
CLOSING += ["without 1 0", "set 0", "set 0", "tolled 0", "threshold 5/1 0/1"]
CLOSING += ["payment s 10 5/1 -15/1", "payment b 10 5/1 15/1", "end closed"]
OPEN = [line.format("-15 -8" if "sell" in line else "10 12") for line in PAIR]
OPEN += ["final 0", "set 0", "set 0", "tolled 1 0 40960", "rival 4", "set 1", "set 1"]
OPEN += ["tolled 1 0 32768", "regret 4", "provisional 0", "set 0", "set 0", "tolled 1 0 4505600"]
OPEN += ["prices 1 11", "accuracy 0 1", "balance 1", "row 1 1 1", "submit z 0 0", "verdict 45"]
OPEN += ["settle 1"]


def market(count: int = 10) -> list[str]:
    """The head and the section, with the settings of so many derived goods."""
    return ["ice 3 regret", f"{SIX} {count}" if count else SIX, *MARKET]


class Journals(unittest.TestCase):
    """What stands first wrong in a journal."""

    def found(self, lines: list[str], wanted: str) -> None:
        """The answer to a journal of these lines."""
        self.assertEqual(answer("".join(f"{line}\n" for line in lines))[0], wanted, lines[-3:])

    def passes(self, lines: list[str]) -> None:
        """All of these are passed, and more is wanted."""
        self.found(lines, f"no {len(lines) + 1} short")

    def ends(self, lines: list[str], rule: str | None) -> None:
        """All lines before the last one are passed, and this one fails the rule, or none."""
        self.passes(lines[:-1])
        if rule is None:
            self.passes(lines)
        else:
            self.found(lines, f"no {len(lines)} {rule}")


class Lots(Journals):
    """A seller of three, and three buyers of whom each takes two: one of them gets its lot."""

    def test_by_hand(self) -> None:
        front = market()
        self.found([*front, *PROVED, *GROUP, *END], "yes 0")
        self.ends([*front, "derive 0", *PROVED[1:]], "above")
        for multiplier, rule in ((2047, None), (2731, "above"), (2730, None), (1, "above")):
            self.ends([*front, *DERIVE, f"tolled 1 0 {multiplier}"], rule)
        self.ends([*front, *DERIVE, CLOSED], "near")
        for toll, rule in (
            (-1, "sign"),
            (40959, None),
            (36000, "above"),
            (45055, None),
            (45056, "above"),
        ):
            self.ends([*front, *PROVED, *GROUP[:-1], f"tolled 1 1 {toll}"], rule)
        for multiplier in (20480, 20479, 20481):
            self.ends([*front, *GROUP[:-1], f"tolled 1 0 {multiplier}"], "above")
        self.found(["ice 3 regret", f"{SIX} 0", *MARKET], "refused 1 50 2")
        for settings in (SIX, f"{SIX} 10"):
            self.ends(["ice 2 regret", settings, *MARKET, "derive 1"], "order")

    def test_settings(self) -> None:
        kinds = ["1 assign", *(f"{n} {kind}" for n in (1, 2, 3) for kind in ("regret", "session"))]
        for head in (f"ice {kind}" for kind in kinds):
            for settings in (SIX, f"{SIX} 1", f"{SIX} 2000"):
                self.ends([head, settings], None)
            for more in ("0", "2001", "1 1"):
                self.found([head, f"{SIX} {more}"], "refused 1 50 2")
        self.found(["ice 3 assign", SIX], "refused 1 50 1")

    def test_only_so_many(self) -> None:
        self.ends([*market(0), "derive 1"], "derived")
        self.ends([*market(1), *PROVED, "derive 1"], "derived")
        self.ends([*market(2), *PROVED, *PROVED, "derive 1"], "derived")
        self.ends([*market(1), *PROVED, *GROUP, "derive 1"], "derived")
        self.ends([*market(1), *PROVED, "final 10", "derive 1"], "order")
        self.passes([*market(2), *PROVED, *GROUP, *PROVED, "rival 10"])

    def test_order_of_a_derivation(self) -> None:
        front, steps = market(), ("tolled 0", "branch 1 0", "dead 1")
        for line in (*steps, "derive 1", "final 10", "set 1", "end regret"):
            self.ends([*front, "derive 1", line], "order")
        for line in ("derive 1", "final 10", "set 1", "near 0", "leaf 2048", "end spent"):
            self.ends([*front, *DERIVE, line], "order")
        for line in (*steps, "amounts 3 1 0 1", "set 1", "rival 10", "regret 0"):
            self.ends([*front, *PROVED, line], "order")
        self.ends([*front, *PROVED, "spent 10 12"], "closed")
        self.ends([*front, "spent 10 12"], "closed")
        for line in ("amounts 1 1 0 1", "amounts 0 1 0 1", "amounts 1 1 9 1", "amounts 0 1 9 1"):
            self.ends([*front, "derive 1", "amounts 1 1 0 1", line], "order")

    def test_amounts_that_are_nowhere(self) -> None:
        front = [*market(), "derive 9"]
        for line, rule in (
            ("amounts 3 1 0 1", None),
            ("amounts 4 1 0 1", "derived"),
            ("amounts 39 1 0 1", "derived"),
            ("amounts 3 1 1 1", "derived"),
            ("amounts 3 2 0 1 199 1", "derived"),
        ):
            self.ends([*front, line], rule)
            self.ends([*front, "amounts 2 1 0 1", line], rule)

    def test_what_a_derivation_may_cite(self) -> None:
        front = market()
        for index in (1, 2, 31, 2031):
            self.ends([*front, *DERIVE, f"tolled 1 {index} 4096"], "near")
        self.ends([*front, *PROVED, *DERIVE, "tolled 1 1 4096"], None)
        self.ends([*front, *PROVED, *DERIVE, "tolled 1 2 4096"], "near")
        self.ends([*front, *PROVED, *PROVED, *DERIVE, "tolled 1 2 4096"], None)
        self.ends([*front, *PROVED, *PROVED, *DERIVE, "tolled 1 3 4096"], "near")
        self.ends([*front, *PROVED, *GROUP[:-1], "tolled 1 2 40960"], "near")
        self.ends([*front, *PROVED, *GROUP, *PROVED, *END[:-3], "tolled 1 2 40960"], None)

    def test_changes(self) -> None:
        front = [*market(), *DERIVE]
        self.ends([*front, "tolled 1 0 0"], "near")
        self.ends([*front, "tolled 2 0 -1 1 1"], "near")
        self.ends([*front, "tolled 1 0 -1"], "sign")
        front += ["branch 1 0", "tolled 1 0 2048"]
        self.ends([*front, "tolled 0"], None)
        self.ends([*front, "tolled 1 0 2048"], "near")
        self.ends([*front, "tolled 1 0 0"], "above")
        group = [*market(), *PROVED, *GROUP[:-1], "branch 2 0", CLOSED]
        self.ends([*group, CLOSED], "near")
        self.ends([*group, "tolled 1 1 0"], "above")
        self.ends([*group, "tolled 0"], None)

    def test_logs_of_more_than_a_leaf(self) -> None:
        front = [*market(), *DERIVE, "branch 1 0"]
        for line, rule in (
            ("branch 1 0", "fixed"),
            ("dead 0", "alive"),
            ("tolled 1 0 4095", None),
            ("tolled 1 0 4096", "above"),
        ):
            self.ends([*front, line], rule)
        self.found([*front, "tolled 1 0 2048", "tolled 0", *GROUP, *END], "yes 0")

    def test_a_gap(self) -> None:
        lines = [*market(), *PROVED, "spent 10 12", *SETS, "tolled 1 1 36000", "end spent"]
        self.found(lines, f"no {len(lines) - 6} closed")
        above = f"no {len(lines) - 1} above"
        for bound, wanted in (("12", ("gap final 10 12", 0)), ("11", (above, 3))):
            text = "\n".join([*lines, ""]).replace("spent 10 12", f"spent 10 {bound}")
            self.assertEqual(gap(text.encode()), wanted)

    def test_other_leaves(self) -> None:
        for line in ("near 1 0 20480", "leaf 20480", "near 0"):
            self.ends([*market(), *GROUP[:-1], line], "order")


class Ends(Journals):
    """The same market with a buyer of more than there is, and a good that nobody trades."""

    def front(self, word: str = "good") -> list[str]:
        """What stands before the first log of a group, with two derived goods."""
        lines = ["ice 3 regret", f"{SIX} 10", "good A", f"{word} B"]
        lines += [f"{line} 0" if line.startswith("bidder") else line for line in MARKET[1:]]
        lines += ["bidder e 0 0", "node buy 0 5 60 60"]
        lines += ["derive 0", "amounts 4 1 0 1", "tolled 1 0 820", *PROVED]
        return [*lines, "final 10", *SETS, "set 0"]

    def test_tolls(self) -> None:
        most = END_OF_RANGE
        for leaf, rule in (
            (f"tolled 2 2 {most} 3 40960", None),
            (f"tolled 3 1 {most} 2 {most} 3 40960", None),
            ("tolled 2 2 241665 3 40960", None),
            ("tolled 2 2 241664 3 40960", "above"),
            ("tolled 1 3 40960", "above"),
            (f"tolled 2 2 {most} 3 {most}", "above"),
            (f"tolled 2 2 -{most} 3 40960", "sign"),
            (f"tolled 2 2 {most} 3 -{most}", "sign"),
            (f"tolled 3 1 -{most} 2 {most} 3 40960", "sign"),
            (f"tolled 3 0 {most} 2 {most} 3 40960", "above"),
        ):
            self.ends([*self.front(), leaf], rule)
        exact = self.front("exact")
        self.ends([*exact, f"tolled 3 1 -{most} 2 {most} 3 40960"], None)
        self.ends([*exact, f"tolled 2 1 -{most} 2 -1"], "sign")

    def test_amounts_and_limits(self) -> None:
        front, size = market(), 2**20
        amounts = [f"amounts {bidder} 1 0 {size}" for bidder in (1, 3)]
        for limit, leaf, rule in (
            (2**40, "tolled 0", None),
            (2 * size, "tolled 0", None),
            (2 * size - 1, "tolled 0", "above"),
            (-1, "tolled 0", "above"),
            (-(2**40), f"tolled 1 0 {END_OF_RANGE}", "above"),
        ):
            derive = [f"derive {limit}", f"amounts 0 1 0 {-size}"]
            self.ends([*front, *derive, *amounts, leaf], rule)


class Places(Journals):
    """Sessions of a seller and a buyer, with a derivation before each line in turn."""

    def front(self, lines: list[str]) -> list[str]:
        """A whole journal."""
        return ["ice 3 session", "settings 50 0 100 1 5 200 9", *lines]

    def test_a_derivation_before_each_line(self) -> None:
        for text, due in ((CLOSING, "yes 0 0/1"), (OPEN, f"no {len(OPEN) + 3} short")):
            lines = self.front(text)
            self.found(lines, due)
            for place, line in enumerate(lines):
                front, back, is_row = lines[:place], lines[place:], line.startswith("row")
                fails = f"no {place} balance" if is_row else f"no {place + 1} order"
                fails = fails if place > 0 else "refused 1 53 -"
                self.found([*front, AMOUNTS[0], *back], fails)
                is_free = line.split()[0] in BEFORE
                shifted = due.replace(str(len(lines) + 1), str(len(lines) + 1 + len(TRIVIAL)))
                self.found([*front, *TRIVIAL, *back], shifted if is_free else fails)

    def test_six_settings(self) -> None:
        lines = self.front(CLOSING)
        self.found([lines[0], "settings 50 0 100 1 5 200", *CLOSING], "yes 0 0/1")

    def test_a_statement(self) -> None:
        lines = ["statement s", "settings 50 0 100 1 5 200", *CLOSING[:3], "settle 0", "regret 0"]
        lines += ["kept 1", "threshold 5/1 0/1", "payment s 10 5/1 -15/1", "end statement", ""]
        text = "\n".join(lines)
        for more, wanted in (
            ("", ("yes -15/1", 0)),
            (" 1", ("yes -15/1", 0)),
            (" 2000", ("yes -15/1", 0)),
            (" 0", ("refused 1 50 2", 2)),
        ):
            found = audit(text.replace("5 200\n", f"5 200{more}\n").encode())
            self.assertEqual(found, wanted)
        self.assertEqual(audit(text.replace("settle 0", "derive 1").encode()), ("no 6 order", 3))


class Drawn(Journals):
    """Journals that are drawn from seeds, of markets of which all assignments were tried."""

    def test_answers(self) -> None:
        for seed in range(60):
            lines, due = derived.journal(seed)
            self.found(lines, due)

    def test_bounds_by_trying_all_sets(self) -> None:
        for seed in range(60):
            draw, tried = random.Random(seed), derived.Market(seed)
            tried.put_derived()
            tried.put_derived()
            for amounts, limit in zip(tried.amounts, tried.limits):
                taken = (derived.total(amounts, nodes) for nodes in tried.feasible)
                self.assertLessEqual(max(taken), limit)
            rates = [draw.randrange(2 ** draw.randrange(62)) for _ in tried.limits]
            amounts = {node: draw.choice([-9, -1, 1, 2, 3, 2**20]) for node in tried.lower}
            least = derived.bound(tried.side(amounts, {}), tried.limits, rates)
            if least > 2**40:
                continue
            front, tried.lines = tried.lines, []
            leaf = derived.tolled([0] * len(rates), rates)
            for limit, rule in ((least, None), (least - 1, "above")):
                tried.lines = []
                tried.put_amounts(limit, amounts)
                lines = derived.with_head("regret", 3, [*front, *tried.lines, leaf])
                self.ends(lines, rule)


if __name__ == "__main__":
    unittest.main()
