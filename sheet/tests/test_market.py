"""Rounds of a market: lines are matched with its packages, whatever their order."""
import copy
import json
import unittest
from typing import Any

from support import ROOT, SETTINGS, market, sheet

TABLE = """\
bidder,bid,lo,hi,A,B
s,own,,,2,1
s,or,-20,-10,-1,
s,or,-8,-5,,-1
b,xor,30,40,1,1
b,xor,20,25,1,
"""
HEAD = "bidder,bid,lo,hi,A,B\n"


def tree(lo: int, hi: int, *leaves: dict[str, Any]) -> dict[str, Any]:
    """A choice of all of its leaves."""
    return {"choose": [len(leaves)] * 2, "lo": lo, "hi": hi, "of": list(leaves)}


def leaf(word: str, good: Any, units: int = 1) -> dict[str, Any]:
    """A leaf with no value of its own."""
    return {word: good, "units": units, "lo": 0, "hi": 0}


FLAT = market(TABLE)[1]
SOLD = [tree(-20, -10, leaf("sell", "A")), tree(-8, -5, leaf("sell", "B"))]
BOUGHT = [tree(30, 40, leaf("buy", "A"), leaf("buy", "B")), tree(20, 25, leaf("buy", "A"))]
EXCHANGE: dict[str, Any] = {
    "settings": SETTINGS,
    "goods": ["A", "B"],
    "bidders": [
        {
            "name": "s",
            "own": {"A": 2, "B": 1},
            "tree": {"choose": [0, 2], "lo": 0, "hi": 0, "of": SOLD},
        },
        {"name": "b", "own": {}, "tree": {"choose": [0, 1], "lo": 0, "hi": 0, "of": BOUGHT}},
    ],
}
OTHER = {"name": "t", "own": {"A": 1}, "tree": {"sell": "A", "units": 1, "lo": -9, "hi": -9}}
BIDS = [
    {"bidder": "s", "lo": [0, -20, 0, -8, 0], "hi": [0, -10, 0, -5, 0]},
    {"bidder": "b", "lo": [0, 30, 0, 0, 20, 0], "hi": [0, 40, 0, 0, 25, 0]},
]


class Rounds(unittest.TestCase):
    """Tables that fit their market."""

    def check(self, table: str, bids: list[dict[str, Any]]) -> None:
        for file in (FLAT, EXCHANGE):
            status, made, errors = sheet(table, "--market", "m.json", m=file)
            self.assertEqual((status, made), (0, {"bids": bids}), errors)

    def test_the_order_of_lines_does_not_matter(self) -> None:
        head, *rows = TABLE.splitlines(keepends=True)
        self.check(TABLE, BIDS)
        self.check(head + "".join(reversed(rows)), BIDS[::-1])

    def test_the_order_of_goods_does_not_matter(self) -> None:
        self.check("bidder,bid,lo,hi,B,A\nb,xor,20,25,,1\nb,xor,30,40,1,1\n", BIDS[1:])

    def test_changed_bidders_alone(self) -> None:
        bid = {"bidder": "b", "lo": [0, 31, 0, 0, 21, 0], "hi": [0, 39, 0, 0, 24, 0]}
        self.check(HEAD + "b,xor,21,24,1,\nb,xor,31,39,1,1\n", [bid])

    def test_what_is_owned_may_be_left_out(self) -> None:
        self.check(TABLE.replace("s,own,,,2,1\n", ""), BIDS)

    def test_without_a_market(self) -> None:
        status, made, errors = sheet(TABLE)
        self.assertEqual((status, made), (0, {"bids": BIDS}))
        self.assertIn("--market FILE matches them", errors[-1])


class Unfit(unittest.TestCase):
    """Tables that don't fit their market."""

    def check(self, rows: str, *wanted: str, file: Any = EXCHANGE) -> None:
        status, made, errors = sheet(HEAD + rows, "--market", "m.json", m=file)
        self.assertEqual((status, made, len(errors)), (2, None, len(wanted)), errors)
        for line, words in zip(errors, wanted):
            self.assertIn(words, line)

    def test_packages(self) -> None:
        self.check(
            "b,xor,30,40,1,1\nb,xor,20,25,2,\n",
            "line 2: the package +1 A of b has no line",
            "line 3: b has no package +2 A in the market",
        )
        self.check(
            "b,xor,30,40,1,1\nb,xor,20,25,1,\nb,xor,21,25,1,\n",
            "line 4: b has no package +1 A once more in the market",
        )
        self.check(
            "b,or,30,40,1,1\nb,or,20,25,1,\n", "line 2: the packages of b are `xor` in the market"
        )

    def test_bidders_and_goods(self) -> None:
        self.check("bb,xor,1,2,1,\n", "line 2: the market has no bidder `bb`")
        status, _, errors = sheet("bidder,bid,lo,hi,C\nb,xor,1,2,1\n", "--market", "m.json", m=FLAT)
        self.assertEqual((status, errors[0]), (2, "t.csv: line 1: the market has no good `C`"))
        self.check("s,own,,,1,1\n", "line 2: s owns something else in the market")

    def test_a_name_that_is_almost_there(self) -> None:
        named = json.loads(json.dumps(FLAT).replace('"b"', '"baker"'))
        self.check("bakre,xor,1,2,1,\n", "no bidder `bakre`: is it `baker`?", file=named)

    def test_a_tree(self) -> None:
        trees = copy.deepcopy(EXCHANGE)
        valued = tree(-20, -10, leaf("sell", "A") | {"lo": -1})
        for change in (
            {"lo": -1},
            {"choose": [1, 2]},
            {"of": [leaf("sell", "A"), SOLD[1]]},
            {"of": [valued, SOLD[1]]},
        ):
            trees["bidders"][0]["tree"] = EXCHANGE["bidders"][0]["tree"] | change
            self.check("s,or,-20,-10,-1,\n", "line 2: s has a tree in the market", file=trees)

    def test_files_that_are_no_market(self) -> None:
        for place, value, words in [
            (("bidders",), 7, "`bidders` is a number where an array is due"),
            (("goods",), [7], "goods.0: a number where a name is due"),
            (("goods",), [{"exact": []}], "goods.0: an array where a name is due"),
            (("bidders", 0), [], "bidders.0: an array where an object is due"),
            (("bidders", 0, "name"), None, "bidders.0: `name` is a text"),
            (("bidders", 0, "own"), {"A": 0.5}, "bidders.0.own.A: `0.5` is no whole number"),
            (("bidders", 0, "tree"), {"sell": ["A"]}, "tree: the member `units` is missing"),
            (("bidders", 0, "tree"), leaf("sell", []), "tree.sell: an array where a name is due"),
            (("bidders", 0, "tree"), leaf("sell", "A", 0), "units: 0 is not within 1 to 1,000"),
            (("bidders", 0, "tree", "choose"), [1], "choose: an array of two numbers is due"),
            (("bidders", 0, "tree", "of"), {}, "`of` is an object where an array is due"),
        ]:
            file = copy.deepcopy(EXCHANGE)
            inner: Any = file
            for step in place[:-1]:
                inner = inner[step]
            inner[place[-1]] = value
            self.check("s,or,-20,-10,-1,\n", words, file=file)


class Notes(unittest.TestCase):
    """What is said beside a round that is written."""

    def test_values_that_are_looser(self) -> None:
        rows = "b,xor,30,40,1,1\nb,xor,19,25,1,\n"
        status, _, errors = sheet(HEAD + rows, "--market", "m.json", m=FLAT)
        self.assertEqual(status, 0)
        self.assertTrue(errors[-1].startswith("line 3: 19 to 25 isn't within the 20 to 25"), errors)
        self.assertIn("verdict 40", errors[-1])

    def test_alike_packages(self) -> None:
        table = TABLE + "s,or,-30,-20,-1,\n"
        flat = market(table)[1]
        status, made, errors = sheet(table, "--market", "m.json", m=flat)
        self.assertEqual((status, made["bids"][0]["lo"]), (0, [0, -20, 0, -8, 0, -30, 0]))
        note = "s has alike packages (-1 A): they go by the order of lines"
        self.assertEqual(errors[1:], [note])


class Trees(unittest.TestCase):
    """Bidders with trees beside those of the table."""

    def trees(self, value: Any) -> tuple[int, Any, list[str]]:
        words = ("--settings", "s.json", "--trees", "o.json")
        return sheet(TABLE, *words, s=SETTINGS, o=value)

    def test_an_exchange_with_both(self) -> None:
        wanted = EXCHANGE | {"bidders": [*EXCHANGE["bidders"], OTHER]}
        for value in ([OTHER], wanted | {"bidders": [OTHER]}):
            status, made, errors = self.trees(value)
            self.assertEqual((status, made), (0, wanted))
            self.assertEqual(errors, ["2 bidders, 2 goods, 4 packages, and 1 bidder with trees"])

    def test_names_that_look_like_slips(self) -> None:
        errors = self.trees([OTHER | {"name": "S"}])[2]
        self.assertEqual(errors[0], "bidders `s` and `S` have almost the same name: are they two?")

    def test_what_is_refused(self) -> None:
        for value, words in [
            (7, "an array of bidders with trees is due"),
            ([7], "bidder 0: a number where an object is due"),
            ([OTHER | {"name": "b"}], "bidder 0: `b` stands in the table or above already"),
            ([OTHER, OTHER], "bidder 1: `t` stands in the table or above already"),
            ([OTHER | {"xor": []}], "bidder 0: the member `xor` doesn't belong here"),
            ([OTHER | {"name": 7}], "bidder 0: `name` is a number where a text is due"),
            ([OTHER | {"own": {"A": 1.5}}], "bidder 0: `t` has a number that isn't whole"),
        ]:
            status, made, errors = self.trees(value)
            self.assertEqual((status, made, len(errors)), (2, None, 1), errors)
            self.assertIn(words, errors[0])


class Examples(unittest.TestCase):
    """The table of the examples, and its files."""

    def test_flat_bids_and_round(self) -> None:
        table = (ROOT / "examples/packages.csv").read_bytes()
        flat = json.loads((ROOT / "examples/packages.json").read_text())
        status, made, _ = sheet(table, "--settings", "s.json", s=flat["settings"])
        self.assertEqual((status, made), (0, flat))
        self.assertEqual(sheet(table)[1], sheet(table, "--market", "m.json", m=flat)[1])


if __name__ == "__main__":
    unittest.main()
