"""The grammar of records, by the table of docs/formats.md: spellings and the ends of ranges."""
import re
import unittest
from fractions import Fraction
from typing import Any

from support import ROOT

from ice_recheck.grammar import FORMS, NoRecord, Record, read_record

BEFORE_THE_DOCUMENT = ("ice 3", "derive", "amounts", "tolled")  # it needn't have version 3 yet
TABLE_ROW = re.compile(r"^\| (`[^|]*`) \|")


def is_record(line: str) -> bool:
    """Whether a line is a record."""
    try:
        read_record(line.encode("latin-1"))
    except NoRecord:
        return False
    return True


class Spellings(unittest.TestCase):
    """What a record is read as, and what is none."""

    def check(self, good: list[str], bad: list[str]) -> None:
        """These are records, and these are none."""
        for line in good:
            self.assertTrue(is_record(line), line)
        for line in bad:
            self.assertFalse(is_record(line), line)

    def test_fields(self) -> None:
        records: tuple[tuple[str, str, list[Any]], ...] = (
            ("ice 2 session", "ice 2", ["session"]),
            ("good a-B_3.c", "good", ["a-B_3.c"]),
            ("bidder b 0 1000000", "bidder", ["b", [0, 1000000]]),
            ("node choose 0 1 2 -3 4", "node choose", [0, 1, 2, -3, 4]),
            ("node sell 31 1000 -5 -5", "node sell", [31, 1000, -5, -5]),
            ("assign", "assign", []),
            ("set 010", "set", [[False, True, False]]),
            ("leaf -1 0 1", "leaf", [[-1, 0, 1]]),
            ("near 0", "near", [[]]),
            ("near 2 0 5 3 -6", "near", [[(0, 5), (3, -6)]]),
            ("derive -7", "derive", [-7]),
            ("amounts 3 2 0 1 199 -2", "amounts", [3, [(0, 1), (199, -2)]]),
            ("tolled 0", "tolled", [[]]),
            ("tolled 2 0 -5 2031 6", "tolled", [[(0, -5), (2031, 6)]]),
            ("prices 2 1 0", "prices", [2, [1, 0]]),
            ("row 3 4 10", "row", [3, 4, [True, False]]),
            ("submit b 0 0", "submit", ["b", [], []]),
            ("submit b 2 1 2 1 3", "submit", ["b", [1, 2], [3]]),
            ("verdict 40 3", "verdict 40", [3]),
            ("verdict accepted", "verdict accepted", []),
            ("threshold -1/2 0/1", "threshold", [Fraction(-1, 2), 0]),
            ("limit balance rows 7 1", "limit", ["balance", "rows", 7, 1]),
            ("refused 2 3 bids.0.lo.1", "refused", [2, 3, "bids.0.lo.1"]),
        )
        for line, form, fields in records:
            self.assertEqual(read_record(line.encode()), Record(form, fields), line)

    def test_one_spelling(self) -> None:
        bad = ["", " ", "assign ", " assign", "assign 1", "ASSIGN", "assign\r", "assign\t", "sets"]
        bad += ["settle", "settle ", "settle 01", "settle +1", "settle -0", "settle 1.0"]
        bad += ["settle 1 ", "settle  1", "settle 1 1", "settle 1_0", "settle 0x1", "settle 1e0"]
        bad += ["settle \xb2", "settle \x001"]
        bad += ["settle " + "9" * 9000, "set 012", "set " + "1" * 201, "set ", "good \xe9"]
        self.check(["settle 1", "set " + "1" * 200], bad)

    def test_names(self) -> None:
        good = ["good " + "x" * 32, "good -", "good .", "good _"]
        self.check(good, ["good " + "x" * 33, "good a/b", "good a~", "good"])

    def test_fractions(self) -> None:
        good = ["0/1", "1/1000", "-1/3", f"{10**18}/1", f"-{10**18}/7"]
        bad = ["0/2", "2/4", "1/1001", "1/0", "1/-2", "-0/1", "1", "1/", "/1", "1/2/3"]
        bad += [f"{10**18 + 1}/1"]
        form = "threshold {} 0/1"
        self.check([form.format(word) for word in good], [form.format(word) for word in bad])

    def test_lists(self) -> None:
        value, multiplier = " -1000000000", " 72057594037927936"
        good = [f"leaf{' 0' * 32}", f"prices 1{' 1' * 32}", f"bidder b{' 1' * 32}"]
        good += [f"submit b 200{value * 200} 200{value * 200}", f"near 1 31{multiplier}"]
        bad = [f"leaf{' 0' * 33}", f"prices 1{' 1' * 33}", f"bidder b{' 1' * 33}"]
        bad += ["leaf", "prices 1", "bidder b", f"submit b 201{value * 201} 0", "submit b"]
        bad += ["submit b 1", "submit b 1 1", "submit b 0", "submit b 0 1", "submit b 0 0 0"]
        bad += ["submit b 1 1000000001 0", "submit b 2 1 0"]
        bad += ["settings 0 0 1 0 0", "settings 0 0 1 0 0 0 1 1", "ice 3 assign", "ice 3", "ice 4 session"]
        bad += ["near", "near 1", "near 1 0", "near 1 0 1 1", "near 2 1 5 0 5", "near 2 1 5 1 6"]
        bad += ["near 1 32 0", "near 0 0 0", f"near 1 0{multiplier[:-1]}7", "near 33" + " 0 1" * 33]
        self.check(good, bad)

    def test_derived_goods(self) -> None:
        every = {count: "".join(f" {index} 1" for index in range(count)) for count in (200, 300)}
        longest = "".join(f" {index} {-(2**62)}" for index in range(1732, 2032))
        good = [f"amounts 39 200{every[200]}", f"tolled 300{every[300]}", f"tolled 300{longest}"]
        bad = ["derive", "derive 1 1", "derive -0", "derive 01", "amounts", "amounts 0"]
        bad += ["amounts 0 0", "amounts 0 1", "amounts 0 1 0", "amounts 0 1 0 0", "amounts 0 1 0 -0"]
        bad += ["amounts 0 2 0 1", "amounts 0 1 0 1 1", "amounts 0 1 0 1 1 1", "amounts 0 0 0 1"]
        bad += ["amounts 0 2 1 1 0 1", "amounts 0 2 1 1 1 2", "amounts 0 2 0 1 1 0"]
        bad += [f"amounts 0 201{every[200]} 200 1", f"tolled 301{every[300]} 300 1", "tolled"]
        bad += ["tolled 1", "tolled 1 0", "tolled 0 0 1", "tolled 2 1 5 0 5", "tolled 2 1 5 1 6"]
        bad += ["tolled 1 0 1 1 1", "tolled 2 0 1", "tolled -1", "tolled 01 0 1", "toll 0", "amount 0"]
        self.check(good, bad)

    def test_ends_of_ranges(self) -> None:
        value, total, multiplier = (-(10**9), 10**9), (-4 * 10**14, 4 * 10**14), (-(2**56), 2**56)
        denominator, violation, node, bidder = (1, 2**32), (0, 2**100), (0, 199), (0, 39)
        for form, low, high in (
            ("settings {} 0 1 0 0 0", 0, 100),
            ("settings 0 {} 1 0 0 0", 0, 10**12),
            ("settings 0 0 {} 0 0 0", 1, 10**9),
            ("settings 0 0 1 {} 0 0", 0, 10**9),
            ("settings 0 0 1 0 {} 0", 0, 20),
            ("settings 0 0 1 0 0 {}", 0, 50000),
            ("settings 0 0 1 0 0 0 {}", 1, 2000),
            ("bidder b {}", 0, 10**6),
            ("node choose {} 0 0 0 0", *node),
            ("node choose 0 {} 0 0 0", *node),
            ("node choose 0 0 {} 0 0", *node),
            ("node choose 0 0 0 {} 0", *value),
            ("node choose 0 0 0 0 {}", *value),
            ("node buy {} 1 0 0", 0, 31),
            ("node sell 0 {} 0 0", 1, 1000),
            ("node sell 0 1 {} 0", *value),
            ("settle {}", 0, 20),
            ("final {}", *total),
            ("rival {}", *total),
            ("provisional {}", *total),
            ("without {} 0", *bidder),
            ("without 0 {}", *total),
            ("branch {} 0", *bidder),
            ("branch 0 {}", *node),
            ("leaf 0 {}", *multiplier),
            ("near 1 0 {}", *multiplier),
            ("near 1 {} 1", 0, 31),
            ("derive {}", -(2**40), 2**40),
            ("amounts {} 1 0 1", *bidder),
            ("amounts 0 1 {} 1", *node),
            ("tolled 1 {} 1", 0, 2031),
            ("tolled 1 0 {}", -(2**62), 2**62),
            ("dead {}", *bidder),
            ("regret {}", 0, 4 * 10**14),
            ("prices {} 0", *denominator),
            ("prices 1 {}", 0, 2**62),
            ("accuracy {} 1", *violation),
            ("accuracy 0 {}", *denominator),
            ("balance {}", *denominator),
            ("row {} 1 1", *bidder),
            ("row 0 {} 1", *denominator),
            ("verdict 40 {}", *node),
            ("verdict 41 {}", *node),
            ("verdict {}", 42, 46),
            ("payment b {} 0/1 0/1", 0, 10**15),
            ("spent {} 0", *total),
            ("spent 0 {}", -(2**127), 2**127 - 1),
            ("limit accuracy den {} 1", *violation),
            ("limit accuracy den 0 {}", *denominator),
            ("pool {} 1", *bidder),
            ("refused {} 1 -", 1, 21),
            ("refused 1 {} -", 1, 99),
            ("unread {}", 1, 21),
        ):
            inside = [form.format(number) for number in (low, low + 1, high)]
            self.check(inside, [form.format(number) for number in (low - 1, high + 1)])

    def test_amounts_at_the_ends_of_their_range(self) -> None:
        amounts = "amounts 0 2 0 1 9 {}"
        good, bad = (-(2**20), -1, 1, 2**20), (-(2**20) - 1, 0, 2**20 + 1)
        self.check([amounts.format(one) for one in good], [amounts.format(one) for one in bad])

    def test_every_record_of_the_document_is_a_form(self) -> None:
        table = (ROOT / "docs" / "formats.md").read_text().split("| Record | Fields |")[1]
        rows = table.split("\n\n")[0].splitlines()[2:]
        cells = [match[1] for match in map(TABLE_ROW.match, rows) if match]
        self.assertEqual(len(cells), len(rows))
        spellings = [text for cell in cells for text in re.findall(r"`([^`]*)`", cell)]
        words = [" ".join(re.findall(r"\b[a-z0-9]+\b", text)) for text in spellings]
        between = {f"verdict {number}" for number in (43, 44, 45)}
        self.assertEqual(set(words) | between | set(BEFORE_THE_DOCUMENT), set(FORMS))


if __name__ == "__main__":
    unittest.main()
