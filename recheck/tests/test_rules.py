"""First failed tests, with their lines, beyond those of the crates: reckoned by hand."""
import re
import unittest

from support import answer

SETTINGS = "settings 50 0 100 1 5 200"
ASSIGN = ["ice 1 assign", SETTINGS]
SELLER = ["bidder s 1", "node sell 0 1 -10 -10"]
BUYER = ["bidder b 0", "node buy 0 1 20 30"]
BEHIND = ["assign", "set 1", "set 1", "end assign"]


def buyer(name: object, nodes: int) -> list[str]:
    """A bidder who takes any of so many less one single units."""
    leaves = ["node buy 0 1 0 0"] * (nodes - 1)
    return [f"bidder {name} 0", f"node choose 0 {nodes - 1} {nodes - 1} 0 0", *leaves]


def chain(depth: int) -> list[str]:
    """A bidder whose tree has so many levels, with a leaf on the last."""
    return ["bidder b 0", *["node choose 0 1 1 0 0"] * (depth - 1), "node buy 0 1 0 0"]


class Rules(unittest.TestCase):
    """What stands first wrong in a journal."""

    def found(self, lines: list[str], wanted: str) -> None:
        """The answer to a journal of these lines."""
        self.assertEqual(answer("".join(f"{line}\n" for line in lines))[0], wanted, lines[-3:])

    def fails_last(self, lines: list[str], rule: str = "exchange") -> None:
        """The last line of these fails, and all before it are passed."""
        self.found(lines, f"no {len(lines)} {rule}")
        self.found(lines[:-1], f"no {len(lines)} short")


class Section(Rules):
    """What the makers of trees and exchanges refuse, at the line that was read last."""

    def test_order(self) -> None:
        goods = [*ASSIGN, "good A"]
        for lines in (
            [ASSIGN[0], "good A"],
            [*ASSIGN, SETTINGS],
            [*ASSIGN, SELLER[0]],
            [*ASSIGN, "assign"],
            [*goods, "assign"],
            [*goods, SELLER[1]],
            [*goods, SELLER[0], "good B"],
            [*goods, SELLER[0], BUYER[0]],
            [*goods, *SELLER, "good B"],
            [*goods, *SELLER, BUYER[1]],
            [*goods, *SELLER, SETTINGS],
            [*goods, *SELLER, "settle 0"],
            [*goods, *SELLER, "spent 0 1"],
        ):
            self.fails_last(lines, "order")

    def test_goods(self) -> None:
        self.fails_last([*ASSIGN, "good A", "exact A"])
        self.fails_last([*ASSIGN, *[f"good G{number}" for number in range(33)]])

    def test_trees(self) -> None:
        front = [*ASSIGN, "good A", "bidder b 0"]
        for node in (
            "node buy 1 1 0 0",
            "node buy 0 1 2 1",
            "node choose 0 1 1 2 1",
            "node choose 0 0 0 0 0",
        ):
            self.fails_last([*front, node])
        for shape in ("1 0 1", "0 2 1", "2 2 1"):
            self.fails_last([*front, f"node choose {shape} 0 0", "node buy 0 1 0 0"])
        self.fails_last([*front, "node choose 0 1 2 0 0", "node buy 0 1 0 0", "node buy 1 1 0 0"])
        self.fails_last([*ASSIGN, "good A", *chain(17)])
        self.found([*ASSIGN, "good A", *chain(16)], "no 21 short")
        two_levels = ["node choose 0 2 2 0 0", "node choose 0 198 198 0 0"]
        leaves = ["node buy 0 1 0 0"] * 198
        self.fails_last([*front, *two_levels, *leaves, "node buy 0 1 0 0"])

    def test_bidders(self) -> None:
        goods = [*ASSIGN, "good A"]
        self.fails_last([*goods, "bidder b 0 0"])
        self.fails_last([*goods, *SELLER, *["bidder s 0", BUYER[1]]])
        many = [line for number in range(40) for line in (f"bidder b{number} 0", BUYER[1])]
        self.fails_last([*goods, *many, *BUYER])
        full = [line for number in range(10) for line in buyer(number, 200)]
        self.found([*goods, *full], f"no {len(goods) + len(full) + 1} short")
        self.fails_last([*goods, *full, *BUYER])

    def test_sales(self) -> None:
        goods = [*ASSIGN, "good A", "good B"]
        either = ["node choose 0 1 2 0 0", "node sell 0 2 0 0", "node sell 0 3 0 0"]
        swap = ["node choose 2 2 2 0 0", "node sell 0 3 0 0", "node buy 0 1 0 0"]
        self.fails_last([*goods, "bidder s 2 9", *either])
        self.found([*goods, "bidder s 3 0", *either], "no 9 short")
        self.fails_last([*goods, "bidder s 1 9", *swap])
        self.found([*goods, "bidder s 2 0", *swap], "no 9 short")


class Sets(Rules):
    """Sets of a bidder who takes two or three of: a unit, a pair or else three units, a unit."""

    FRONT = [
        *ASSIGN,
        "good A",
        "bidder s 9",
        "node sell 0 4 -10 -10",
        "bidder b 0",
        "node choose 2 3 3 0 0",
        "node buy 0 1 8 8",
        "node choose 1 1 2 0 0",
        "node buy 0 2 9 9",
        "node buy 0 3 1 1",
        "node buy 0 1 1 1",
        "assign",
        "set 1",
    ]

    def test_satisfied(self) -> None:
        for bits, rule in (
            ("00000", "count"),
            ("0000000", "count"),
            ("010000", "parent"),
            ("000100", "parent"),
            ("110000", "few"),
            ("101000", "few"),
            ("111000", "few"),
            ("111110", "many"),
            ("110100", "few"),
            ("110101", "parent"),
            ("111110", "many"),
            ("111011", "excess"),
        ):
            self.fails_last([*self.FRONT, f"set {bits}"], rule)
        for bits, worth in (("000000", -10), ("111100", 7), ("111101", 8), ("101101", 0)):
            self.found([*self.FRONT, f"set {bits}", "end assign"], f"yes {worth}")

    def test_exact(self) -> None:
        front = [line.replace("good A", "exact A") for line in self.FRONT]
        self.fails_last([*front, "set 111100"], "excess")
        self.found([*front, "set 111101", "end assign"], "yes 8")

    def test_end(self) -> None:
        front = [*self.FRONT, "set 000000"]
        for line in ("set 1", "end regret", "assign"):
            self.fails_last([*front, line], "order")
        self.found([*front, "end assign", "end assign"], "no 17 order")


class Lists(Rules):
    """Lists of rows, over the open session of a seller at 8 to 15 and a buyer at 10 to 12."""

    FRONT = [
        "ice 1 session",
        SETTINGS,
        "good A",
        "bidder s 1",
        "node sell 0 1 -15 -8",
        "bidder b 0",
        "node buy 0 1 10 12",
        "settle 0",
        "final 0",
        "set 0",
        "set 0",
        "leaf 640",
        "rival 4",
        "set 1",
        "set 1",
        "leaf 512",
        "regret 4",
        "provisional 0",
        "set 0",
        "set 0",
        "leaf 70400",
        "prices 1 11",
    ]

    def test_a_list_that_may_go_on_is_short(self) -> None:
        self.found([*self.FRONT, "accuracy 0 1"], "no 24 short")
        self.found([*self.FRONT, "accuracy 0 1", "row 1 9 1"], "no 25 short")
        self.found([*self.FRONT, "accuracy 0 1", "row 1 9 1", "assign"], "no 24 accuracy")
        self.found([*self.FRONT, "accuracy 0 1", "balance 1"], "no 25 short")
        self.found([*self.FRONT, "accuracy 0 1", "balance 1", "assign"], "no 24 balance")

    def test_the_200th_row_ends_a_list(self) -> None:
        front = [*self.FRONT, "accuracy 0 1"]
        self.found([*front, *["row 1 1 0"] * 199], "no 223 short")
        self.found([*front, *["row 1 1 0"] * 200], "no 223 accuracy")
        front = [*self.FRONT, "accuracy 0 200", *["row 1 1 0"] * 200]
        self.found(front, "no 224 short")
        self.found([*front, "row 1 1 0"], "no 224 order")
        balance = [*front, "balance 200", *["row 1 1 1"] * 200]
        self.found(balance, "no 425 short")
        self.found([*balance, "row 1 1 1"], "no 425 order")
        self.found([*balance, "end open"], "no 425 closed")

    def test_rows(self) -> None:
        front = [*self.FRONT, "accuracy 0 9", "row 1 1 0"]
        for line, rule in (
            ("row 2 1 1", "count"),
            ("row 1 1 11", "count"),
            ("prices 1 11", "order"),
        ):
            self.fails_last([*front, line], rule)

    def test_stops(self) -> None:
        front = [*self.FRONT, "accuracy 0 1", "balance 1", "row 1 1 1"]
        for line, rule in (
            ("end open", "closed"),
            ("end closed", "order"),
            ("end spent", "order"),
            ("refused 2 1 -", "closed"),
            ("refused 1 1 -", "order"),
            ("unread 2", "closed"),
            ("unread 3", "order"),
            ("limit balance rows 0 1", "order"),
            ("spent 0 1", "order"),
        ):
            self.fails_last([*front, line], rule)
            self.found([*front, "submit z 0 0", "verdict 45", line], "no 28 order")
        self.fails_last([*front, "submit z 0 0", "submit z 0 0"], "order")
        self.fails_last([*front, "submit z 0 0", "verdict 44"], "verdict")

    def test_records_of_version_3(self) -> None:
        second = [re.sub("^leaf ", "near 1 0 ", line) for line in self.FRONT]
        for lines in (self.FRONT, ["ice 2 session", *second[1:]]):
            for place in range(1, len(lines) + 1):
                for record in ("derive 1", "amounts 0 1 0 1", "tolled 1 0 640"):
                    self.found([*lines[:place], record, *lines[place:]], f"no {place + 1} order")
            self.found([*lines[:9], "derive 1", "amounts 0 1 0 0"], "refused 1 50 11")
            self.found([*lines[:9], "derive 1", "tolled 301"], "refused 1 50 11")
        self.found([*BEHIND[1:3], "derive 1"], "refused 1 53 -")
        self.fails_last([*ASSIGN, "good A", *SELLER, *BUYER, "derive 1"], "order")

    def test_limits(self) -> None:
        for line in ("limit accuracy den 0 1", "limit balance rows 9 9"):
            self.fails_last([*self.FRONT[:-1], line], "closed")
        self.fails_last([*self.FRONT, "limit accuracy den 0 1"], "order")


if __name__ == "__main__":
    unittest.main()
