"""The grammar of records: the one of docs/formats.md, at both ends of each range."""
import re
import unittest

from support import ROOT

from ice_page.records import ALL_FORMS, Misspelt, read_record

BIG, V32, MULTIPLIER = 4 * 10**14, 2**32, 2**56
NAME = "a" * 32

# A record with a place for a number, and the least and the greatest number there.
RANGES = [
    ("settings {} 0 1 0 0 0", 0, 100),
    ("settings 0 {} 1 0 0 0", 0, 10**12),
    ("settings 0 0 {} 0 0 0", 1, 10**9),
    ("settings 0 0 1 {} 0 0", 0, 10**9),
    ("settings 0 0 1 0 {} 0", 0, 20),
    ("settings 0 0 1 0 0 {}", 0, 50000),
    ("settings 0 0 1 0 0 0 {}", 1, 2000),
    ("bidder a {}", 0, 10**6),
    ("bidder a 1 {}", 0, 10**6),
    ("node choose {} 1 1 0 0", 0, 199),
    ("node choose 0 {} 1 0 0", 0, 199),
    ("node choose 0 1 {} 0 0", 0, 199),
    ("node choose 0 1 1 {} 0", -(10**9), 10**9),
    ("node choose 0 1 1 0 {}", -(10**9), 10**9),
    ("node buy {} 1 0 0", 0, 31),
    ("node buy 0 {} 0 0", 1, 1000),
    ("node sell 0 1 {} 0", -(10**9), 10**9),
    ("settle {}", 0, 20),
    ("final {}", -BIG, BIG),
    ("rival {}", -BIG, BIG),
    ("provisional {}", -BIG, BIG),
    ("without {} 0", 0, 39),
    ("without 0 {}", -BIG, BIG),
    ("branch {} 0", 0, 39),
    ("branch 0 {}", 0, 199),
    ("leaf {}", -MULTIPLIER, MULTIPLIER),
    ("near 1 {} 5", 0, 31),
    ("near 1 0 {}", -MULTIPLIER, MULTIPLIER),
    ("derive {}", -(2**40), 2**40),
    ("amounts {} 1 0 1", 0, 39),
    ("amounts 0 1 {} 1", 0, 199),
    ("amounts 0 1 0 {}", 1, 2**20),
    ("amounts 0 1 0 -{}", 1, 2**20),
    ("tolled 1 {} 5", 0, 2031),
    ("tolled 1 0 {}", -(2**62), 2**62),
    ("dead {}", 0, 39),
    ("regret {}", 0, BIG),
    ("prices {} 1", 1, V32),
    ("prices 1 {}", 0, 2**62),
    ("accuracy {} 1", 0, 2**100),
    ("accuracy 0 {}", 1, V32),
    ("balance {}", 1, V32),
    ("row {} 1 1", 0, 39),
    ("row 0 {} 1", 1, V32),
    ("submit a 1 {} 0", -(10**9), 10**9),
    ("submit a 0 1 {}", -(10**9), 10**9),
    ("verdict 40 {}", 0, 199),
    ("verdict 41 {}", 0, 199),
    ("verdict {}", 42, 46),
    ("threshold {}/1 0/1", -(10**18), 10**18),
    ("threshold 1/{} 0/1", 1, 1000),
    ("payment a {} 0/1 0/1", 0, 10**15),
    ("spent {} 0", -BIG, BIG),
    ("spent 0 {}", -(2**127), 2**127 - 1),
    ("limit balance den {} 1", 0, 2**100),
    ("limit accuracy wide 0 {}", 1, V32),
    ("pool {} 1", 0, 39),
    ("refused {} 1 -", 1, 21),
    ("refused 2 {} a", 1, 99),
    ("unread {}", 1, 21),
    ("distance {}/1", 0, 2**127),
    ("distance 1/{}", 1, 2**48),
    ("fairness {}", 1, 2**24),
    ("hold {} 1 1", 0, 39),
    ("hold 0 {} 1", 0, 2**24),
    ("hold 0 1 {}", 0, 2**24),
]

RECORDS = [
    "ice 1 assign",
    "ice 1 exchange",
    "ice 1 prices",
    "ice 2 session",
    "ice 3 regret",
    "ice 3 session",
    "settings 0 0 1 0 0 0",
    f"good {NAME}",
    f"exact {NAME}",
    "assign",
    "set " + "01" * 100,
    "near 0",
    "near 2 3 -1 31 0",
    "amounts 0 2 0 1 199 -1",
    "amounts 0 200" + "".join(f" {node} 1048576" for node in range(200)),
    "tolled 0",
    "tolled 2 0 0 2031 -1",
    "tolled 300" + "".join(f" {number} {-(2**62)}" for number in range(1732, 2032)),
    "verdict accepted",
    "end limit",
    "submit a 0 0",
    "submit a 2 1 2 1 3",
    "refused 2 3 bids.0.lo.0",
    "refused 2 1 " + "a" * 256,
    "threshold 1/2 -3/4",
    "limit accuracy pivots 0 1",
    "bidder a" + " 0" * 32,
    "leaf" + " 0" * 32,
]

NO_RECORDS = [
    "",
    " ",
    "ice",
    "ice 1",
    "ice 2 assign",
    "ice 3 assign",
    "ice 3 exchange",
    "ice 4 session",
    "ice 01 assign",
    "settings 0 0 1 0 0 0 0",
    "settings 0 0 1 0 0 0 1 1",
    "good",
    "good ",
    f"good {NAME}a",
    "good a b",
    "good <b>",
    "good ä",
    " good a",
    "good a ",
    "good  a",
    "node",
    "node pick 0 1",
    "node choose 0 1 1 0",
    "node buy 0 1 0 0 0",
    "set",
    "set 2",
    "set " + "1" * 201,
    "leaf",
    "leaf" + " 0" * 33,
    "bidder a" + " 0" * 33,
    "bidder a",
    "near 1",
    "near 1 0",
    "near 0 0 1",
    "near 2 3 1 3 1",
    "near 2 4 1 3 1",
    "near 33" + " 0 1" * 33,
    "derive",
    "derive 1 1",
    "derive -0",
    "amounts 0",
    "amounts 0 0",
    "amounts 0 1 0",
    "amounts 0 1 0 1 1 1",
    "amounts 0 2 0 1 1 0",
    "amounts 0 2 1 1 0 1",
    "amounts 0 2 1 1 1 2",
    "amounts 0 201" + "".join(f" {node} 1" for node in range(201)),
    "tolled",
    "tolled 1",
    "tolled 0 0 1",
    "tolled 2 5 1 5 2",
    "tolled 2 5 1 4 2",
    "tolled 301" + "".join(f" {number} 1" for number in range(301)),
    "final 01",
    "final +1",
    "final -0",
    "final 1.0",
    "final",
    "verdict",
    "verdict 39",
    "verdict 42 0",
    "verdict 40",
    "verdict accepted 1",
    "submit a 1 0",
    "submit a 1 0 2 1",
    "submit a 201" + " 0" * 202,
    "submit a 0 0 0",
    "threshold 2/4 0/1",
    "threshold 0/2 0/1",
    "threshold 1 0/1",
    "threshold 1/-2 0/1",
    "end",
    "end done",
    "refused 2 1 " + "a" * 257,
    "refused 2 1 a/b",
    "limit best den 0 1",
    "limit fairness den 0 1",
    "limit balance far 0 1",
    "unread",
    "settle",
    "prices 1",
    "best a 1",
    "yes 0",
]


def is_record(line: str) -> bool:
    """Whether a line is a record."""
    try:
        read_record(line)
    except Misspelt:
        return False
    return True


class Records(unittest.TestCase):
    """Which lines are records."""

    def test_forms_are_those_of_the_documents(self) -> None:
        rows = re.findall(
            r"^\| (`[^|]*) \| [^|]* \|$", (ROOT / "docs/formats.md").read_text(), re.M
        )
        stated = set()
        for cell in rows[: rows.index("`unread F`") + 1]:
            headings = re.findall("`([^`]+)`", cell)
            if " to " in cell:
                first, last = (int(heading.split()[1]) for heading in headings)
                headings = [f"verdict {number}" for number in range(first, last + 1)]
            stated.update(headings)
        self.assertEqual(stated, {form.heading for form in ALL_FORMS})
        self.assertEqual(len(stated), len(ALL_FORMS))

    def test_both_ends_of_each_range(self) -> None:
        for form, least, most in RANGES:
            for number in (least, least + 1, most - 1, most):
                self.assertTrue(is_record(form.format(number)), form.format(number))
            for number in (least - 1, most + 1, 10 * most):
                lawful = form == "verdict {}" and number in range(42, 47)
                self.assertEqual(is_record(form.format(number)), lawful, form.format(number))

    def test_one_spelling(self) -> None:
        for line in RECORDS:
            self.assertTrue(is_record(line), line)
        for line in NO_RECORDS:
            self.assertFalse(is_record(line), line)


if __name__ == "__main__":
    unittest.main()
