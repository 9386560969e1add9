"""Lots of alike units: lines `each`, and the word for lots of all or none."""
import unittest

from support import market, sheet

from ice_sheet.table import lots_of

PORT = "bidder,bid,lo,hi,KW49,KW50\nPort,own,,,40,40\n"
EACH = PORT + "Port,each,-100,-90,-40,\nLine,each,110,130,,5\n"


class Lots(unittest.TestCase):
    """Lines `each`."""

    def test_each_number_of_units_can_be_taken(self) -> None:
        for units in range(1, 130):
            for sign in (1, -1):
                lots = lots_of(sign * units)
                sums = {0}
                for lot in lots:
                    sums |= {each + lot for each in sums}
                self.assertEqual(sums, {sign * number for number in range(units + 1)})
        self.assertEqual(lots_of(-40), [-1, -2, -4, -8, -16, -9])
        self.assertEqual(lots_of(5), [1, 2, 2])
        self.assertEqual(len(lots_of(1000)), 10)

    def test_a_seller_and_a_buyer(self) -> None:
        status, made, errors = market(EACH)
        self.assertEqual(status, 0, errors)
        port, line = made["bidders"]
        lots = [(1, -100, -90), (2, -200, -180), (4, -400, -360), (8, -800, -720)]
        lots += [(16, -1600, -1440), (9, -900, -810)]
        sold = [{"units": {"KW49": -n}, "lo": lo, "hi": hi} for n, lo, hi in lots]
        self.assertEqual(port, {"name": "Port", "own": {"KW49": 40, "KW50": 40}, "or": sold})
        lots = [(1, 110, 130), (2, 220, 260), (2, 220, 260)]
        bought = [{"units": {"KW50": n}, "lo": lo, "hi": hi} for n, lo, hi in lots]
        self.assertEqual(line, {"name": "Line", "own": {}, "or": bought})
        self.assertEqual(errors, ["2 bidders, 2 goods, 9 packages"])

    def test_beside_other_lines(self) -> None:
        status, made, errors = market(EACH + "Port,or,-50,-40,,-1\nPort,each,-70,-60,,-2\n")
        self.assertEqual((status, len(made["bidders"][0]["or"])), (0, 9), errors)

    def test_a_round(self) -> None:
        made = market(EACH)[1]
        tighter = EACH.replace("-100,-90", "-95,-95").replace("110,130", "120,125")
        status, bids, errors = sheet(tighter, "--market", "m.json", m=made)
        self.assertEqual((status, errors), (0, ["2 bidders, 2 goods, 9 packages"]))
        lo = [0, -95, 0, -190, 0, -380, 0, -760, 0, -1520, 0, -855, 0]
        self.assertEqual(bids["bids"][0], {"bidder": "Port", "lo": lo, "hi": lo})
        bid = {"lo": [0, 120, 0, 240, 0, 240, 0], "hi": [0, 125, 0, 250, 0, 250, 0]}
        self.assertEqual(bids["bids"][1], {"bidder": "Line", **bid})
        looser = EACH.replace("-100,-90", "-101,-90")
        errors = sheet(looser, "--market", "m.json", m=made)[2]
        self.assertEqual((len(errors), errors[1][:7]), (2, "line 3:"))

    def test_what_is_refused(self) -> None:
        for row, words in [
            ("Port,each,-100,-90,-40,-40", "line 3, column B (bid): a line `each` has units of one"),
            ("Port,each,-100,-90,,", "line 3: a package with no units"),
            ("Port,each,-100,-90,-41,", "sells 41 of KW49 here and owns 40"),
            ("Port,each,90,100,-40,", "who asks 90 to 100 for it writes lo -100, hi -90"),
            ("Port,each,-100000000,-5,-40,", "16 units come to -1,600,000,000, and a value is"),
            ("Port,xor,-9,-9,-1,\nPort,each,-9,-9,-2,", "and those of `each` are `or`"),
        ]:
            status, made, errors = market(PORT + row + "\n")
            self.assertEqual((status, made), (2, None))
            self.assertTrue(any(words in line for line in errors), errors)
        self.assertEqual(market(PORT + "Port,each!,90,100,-40,\n")[0], 0)


class AllOrNone(unittest.TestCase):
    """A seller's line sells all of its units or none."""

    def told(self, rows: str) -> list[str]:
        """The lines above the summary."""
        status, _, errors = market(PORT + rows)
        self.assertEqual(status, 0, errors)
        return errors[:-1]

    def test_a_word_for_it(self) -> None:
        word = "Port sells 40 of KW49 in one lot, all or none"
        behind = ": a line `each` sells any number"
        self.assertEqual(self.told("Port,or,-4000,-4000,-40,\n"), [word + behind])
        both = "Port,or,-4000,-4000,-40,\nPort,or,-4000,-4000,,-40\n"
        self.assertEqual(self.told(both), [f"{word} (likewise KW50){behind}"])

    def test_where_none_is_due(self) -> None:
        for rows in (
            "Port,each,-100,-90,-40,\n",
            "Port,or,-9,-9,-1,\nPort,or,-80,-80,-9,\n",
            "".join(f"Port,xor,{-9 * n},{-9 * n},{-n},\n" for n in range(1, 6)),
            "Port,xor,-80,-80,-4,-4\n",
            "Port,each,-9,-9,-1,\nLine,xor,80,80,4,\n",
        ):
            self.assertEqual(self.told(rows), [], rows)

    def test_many_of_them(self) -> None:
        rows = "".join(f"P{n}0,own,,,9,\nP{n}0,or,-9,-9,-9,\n" for n in range(10, 17))
        errors = self.told(rows + "Port,each,-9,-9,-1,\n")
        self.assertEqual((len(errors), errors[5]), (6, "lots of all or none: and 2 more"))


if __name__ == "__main__":
    unittest.main()
