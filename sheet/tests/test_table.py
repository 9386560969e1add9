"""Tables as spreadsheets write them: what is taken, and what is refused with which words."""
import json
import unittest
from typing import Any, Sequence

from support import SETTINGS, market, run, sheet

from ice_sheet import command

HEAD = "bidder,bid,lo,hi,A,B\n"
SMALL = HEAD + "s,own,,,2,1\ns,or,-20,-10,-1,\nb,xor,30,40,1,1\n"
BIDDERS = [
    {"name": "s", "own": {"A": 2, "B": 1}, "or": [{"units": {"A": -1}, "lo": -20, "hi": -10}]},
    {"name": "b", "own": {}, "xor": [{"units": {"A": 1, "B": 1}, "lo": 30, "hi": 40}]},
]


def with_row(row: str) -> str:
    """The small table with a line more, its line 5."""
    return SMALL + row + "\n"


class Taken(unittest.TestCase):
    """Tables that say the same as the small one."""

    def check(self, table: str | bytes, goods: Sequence[Any] = ("A", "B")) -> None:
        status, made, errors = market(table)
        self.assertEqual((status, made["goods"]), (0, list(goods)), errors)
        self.assertEqual(made["bidders"], BIDDERS)

    def test_marks_between_cells(self) -> None:
        for mark in ",;\t":
            self.check(SMALL.replace(",", mark))

    def test_bytes(self) -> None:
        self.check(SMALL.encode("utf-8-sig"))
        self.check(SMALL.replace("\n", "\r\n"))
        self.check(SMALL.replace("\n", "\r"))
        self.check(SMALL.replace(",", "\t").encode("utf-16"))

    def test_layout(self) -> None:
        self.check(SMALL.replace(",", " , "))
        self.check("\n,,,,,\n" + SMALL + "\n,,,,,\n")
        self.check(SMALL.replace("\n", ",,\n"))
        self.check(SMALL.replace("\n", ";;;;\n").replace(",", ";"))
        self.check(SMALL.replace("s,own", '"s","own"'))
        self.check(SMALL.replace("bidder,bid", "Bidder,BID").replace("own", "Own"))

    def test_lines_above_the_heads(self) -> None:
        for mark in ",;\t":
            for line in ("sep=,\n", "SEP=;\r\n", '"sep=\t"\n', "\nsep=;\n"):
                self.check(line + SMALL.replace(",", mark))
                said = market(line + SMALL.replace(",", mark))[2]
                self.assertEqual(said, ["2 bidders, 2 goods, 2 packages"])
        title = "Berths of week 45;;;\n\nfor sale: 3\n"
        status, made, errors = market(title + SMALL)
        self.assertEqual((status, made["bidders"]), (0, BIDDERS))
        self.assertEqual(errors[0], "the heads stand in line 4: what is above them is left out")
        status, _, errors = market(title + SMALL.replace("30,40", "30,x"))
        self.assertIn("t.csv: line 7, column D (hi)", errors[1])

    def test_spellings_of_numbers(self) -> None:
        self.check(SMALL.replace("-20,-10", "-20.0,-10.00"))
        self.check(SMALL.replace("-20,-10", "−20,–10"))
        self.check(SMALL.replace("-20,-10", '"-20,0"," -10 "'))
        self.check(SMALL.replace("30,40", "+30,040"))
        self.check(SMALL.replace("or,-20,-10,-1,", "or,-20,-10,-1,0"))

    def test_exact_goods(self) -> None:
        self.check(SMALL.replace("hi,A,B", "hi,A =,B"), [{"exact": "A"}, "B"])
        self.check(SMALL.replace("hi,A,B", "hi,A,B="), ["A", {"exact": "B"}])

    def test_a_sign_that_is_meant(self) -> None:
        table = HEAD + "s,own,,,1,\ns,or!,10,20,-1,\nb,xor!,-30,-20,1,\n"
        status, made, errors = market(table)
        self.assertEqual(status, 0, errors)
        self.assertEqual(made["bidders"][0]["or"], [{"units": {"A": -1}, "lo": 10, "hi": 20}])
        self.assertEqual(made["bidders"][1]["xor"], [{"units": {"A": 1}, "lo": -30, "hi": -20}])

    def test_a_swap_has_any_sign(self) -> None:
        for values in ("-5,-1", "1,5"):
            self.assertEqual(market(with_row(f"s,or,{values},-1,1"))[0], 0)


class Refused(unittest.TestCase):
    """Tables that are refused, with the line, the column and what to do."""

    def check(self, table: str | bytes, *wanted: tuple[str, ...]) -> None:
        status, made, errors = market(table)
        self.assertEqual((status, made, len(errors)), (2, None, len(wanted)), errors)
        for line, (place, *words) in zip(errors, wanted):
            self.assertTrue(line.startswith(f"t.csv: {place}"), line)
            for part in words:
                self.assertIn(part, line)

    def test_numbers(self) -> None:
        for cell, words in [
            ('"4,200"', "a thousands separator, as it seems: write 4200"),
            ("4.000", "a thousands separator, as it seems: write 4000"),
            ("4.200", "a thousands separator, as it seems: write 4200"),
            ("4'200", "a thousands separator, as it seems: write 4200"),
            ("4 200", "a thousands separator, as it seems: write 4200"),
            ("4200.5", "take cents for all values, here 420050"),
            ('"4.200,50"', "take cents for all values, here 420050"),
            ("4E+03", "shortened by the spreadsheet"),
            ("(30)", "write -30"),
            ("30-", "write -30"),
            ("#REF!", "own sign for a fault"),
            ("30 €", "digits alone"),
            ("٣٠", "digits alone"),
            ("9" * 5000, "too large"),
            ("1000000001", "not within -1,000,000,000 to 1,000,000,000"),
        ]:
            self.check(with_row(f"c,xor,{cell},1000000000,1,"), ("line 5, column C (lo)", words))

    def test_units_and_owned_amounts(self) -> None:
        self.check(with_row("c,xor,1,2,1001,"), ("line 5, column E (A)", "-1,000 to 1,000"))
        for cell in ("0.5", '"1,5"'):
            words = "is a part of a unit: units are whole; make a smaller unit of the good"
            self.check(with_row(f"c,xor,1,2,,{cell}"), ("line 5, column F (B)", words))
        package = "\nc,xor,1,2,1,"
        self.check(with_row("c,own,,,-1," + package), ("line 5, column E (A)", "0 to 1,000,000"))
        self.check(with_row("c,own,5,,1," + package), ("line 5, column C (lo)", "no values"))

    def test_signs(self) -> None:
        self.check(
            with_row("s,or,500,600,,-1"),
            ("line 5, column D (hi)", "pay up to 600", "writes lo -600, hi -500", "`or!`"),
        )
        self.check(with_row("s,or,-5,1,,-1"), ("line 5, column D (hi)", "pay up to 1"))
        self.check(
            with_row("c,xor,-600,-500,1,"), ("line 5, column C (lo)", "want 600", "`xor!`")
        )

    def test_packages(self) -> None:
        self.check(with_row("c,xor,1,2,,"), ("line 5", "no units"))
        self.check(with_row("c,xor,2,1,1,"), ("line 5, column C (lo)", "lo 2 is above hi 1"))
        self.check(with_row("c,xor,,1,1,"), ("line 5, column C (lo)", "has no number"))
        self.check(with_row("b,or,1,2,1,"), ("line 5, column B (bid)", "`xor` above"))
        self.check(with_row("c,and,1,2,1,"), ("line 5, column B (bid)", "`own`, `xor`, `or` or `each`"))
        self.check(with_row("c,,1,2,1,"), ("line 5, column B (bid)",))

    def test_bidders(self) -> None:
        self.check(with_row("c,own,,,1,"), ("line 5", "c has no package"))
        self.check(with_row("s,own,,,1,"), ("line 5", "s has a line `own` already"))
        self.check(with_row("Bäcker,xor,1,2,1,"), ("line 5, column A (bidder)", "Baecker"))
        self.check(with_row(",xor,1,2,1,"), ("line 5, column A (bidder)", "no bidder is named"))
        self.check(with_row("s,or,-2,-1,-2,"), ("line 5", "sells 3 of A here and owns 2"))
        self.check(with_row("c,xor,-2,-1,-1,"), ("line 5", "sells 1 of A here and owns 0"))
        many = "".join(f"c,xor,1,2,1,{n % 2}\n" for n in range(90))
        self.check(SMALL + many, ("line 5", "226 nodes, of at most 200"))
        crowd = "".join(f"c-{n},xor,1,2,1,\n" for n in range(39))
        self.check(SMALL + crowd, ("41 bidders",))

    def test_heads(self) -> None:
        self.check(SMALL.replace("lo,hi", "hi,lo"), ("line 1", "the heads are bidder, bid, lo, hi"))
        self.check(SMALL.replace("A,B\n", "A,A\n"), ("line 1, column F (A)", "column E"))
        self.check(SMALL.replace("A,B\n", "A,B C\n"), ("line 1, column F (B C)", "no lawful name"))
        self.check("bidder,bid,lo,hi\n", ("line 1: no good",), ("line 1: no bidder",))
        goods = ",".join(f"g{n}" for n in range(33))
        table = f"bidder,bid,lo,hi,{goods}\nb,xor,1,2,1\n"
        self.check(table, ("line 1", "33 goods"))

    def test_too_many_cells(self) -> None:
        self.check(with_row("c,xor,1,2,1,1,7"), ("line 5, column G", "`7` stands below no head"))
        named = SMALL.replace("A,B\n", "A,B,\n") + "c,xor,1,2,1,1,7\n"
        self.check(named, ("line 5, column G", "`7` stands below no head"))

    def test_bytes(self) -> None:
        table = with_row("Bäcker,xor,1,2,1,").encode("cp1252")
        self.check(table, ("line 5", "byte e4 is no UTF-8", "it is `ä`", "CSV UTF-8"))
        self.check(b"PK\x03\x04rest", ("this is a workbook", "CSV UTF-8"))
        self.check(SMALL.encode("utf-16-le"), ("line 1", "a byte 0"))
        self.check(b"\xff\xfeb\x00i", ("the table is no whole text", "CSV UTF-8"))
        self.check(with_row('c,"xor,1,2,1,'), ("line 5", "quotation mark"))
        self.check("", ("the table is empty", ""))
        self.check("\n,,\n", ("the table is empty", ""))

    def test_all_faults_are_told(self) -> None:
        rows = "c,xor,x,2,1,\nc,xor,1,y,1,\n"
        wanted = [("line 5, column C (lo)",), ("line 6, column D (hi)",)]
        self.check(SMALL + rows, *wanted)
        status, _, errors = market(SMALL + "c,xor,x,2,1,\n" * 30)
        self.assertEqual((status, len(errors), errors[-1]), (2, 21, "t.csv: and 10 more"))

    def test_only_what_is_at_fault_is_told(self) -> None:
        self.check(HEAD + "Bäcker,xor,1,2,1,\n", ("line 2, column A (bidder)", "no lawful name"))

    def test_a_table_of_faults_alone_is_not_read_to_its_end(self) -> None:
        for table in (SMALL + "c,xor,x,2,1,\n" * 5000, SMALL + "c,xor,1,2,1," + ",7" * 100_000):
            status, made, errors = market(table)
            self.assertEqual((status, made, len(errors)), (2, None, 21))
            self.assertEqual(errors[-1], "t.csv: and many more")
        self.check(SMALL + "c,xor,1,2,1,\n" * 20_000, ("line 10001: more than 10,000 lines",))

    def test_a_line_of_several_lines(self) -> None:
        table = SMALL.replace("b,xor", '"b\n",xor') + "c,xor,x,2,1,\n"
        self.check(table, ("line 6, column C (lo)",))


class Told(unittest.TestCase):
    """What stands on standard error beside a file that is written."""

    def test_counts(self) -> None:
        self.assertEqual(market(SMALL)[2], ["2 bidders, 2 goods, 2 packages"])

    def test_names_that_look_like_slips(self) -> None:
        for one, other, is_told in [
            ("alpha", "alpah", True),
            ("alpha", "Alpha", True),
            ("alpha", "alphas", True),
            ("alpha", "alpho", True),
            ("a", "A", True),
            ("alpha", "alphaxx", False),
            ("slot-1", "slot-2", False),
            ("slot-1", "slot-12", False),
            ("slot-12", "slot-21", False),
            ("abc", "abd", False),
            ("berth-A", "berth-B", False),
            ("berth-A", "berth-a", True),
            ("north", "south", False),
        ]:
            rows = f"{one},xor,1,2,1,\n{other},xor,1,2,1,\n"
            status, _, errors = market(SMALL + rows)
            told = f"bidders `{one}` and `{other}` have almost the same name: are they two?"
            self.assertEqual((status, told in errors), (0, is_told), (one, other))

    def test_many_of_them(self) -> None:
        rows = "".join(f"alph{letter},xor,1,2,1,\n" for letter in "abcd")
        errors = market(SMALL + rows)[2]
        self.assertEqual((len(errors), errors[5]), (7, "bidders: and 1 more"))

    def test_goods_too(self) -> None:
        errors = market(SMALL.replace("A,B\n", "North,north\n"))[2]
        self.assertIn("goods `North` and `north` have almost the same name: are they two?", errors)


class Words(unittest.TestCase):
    """The words, and what can't be read."""

    def test_settings(self) -> None:
        text = json.dumps(SETTINGS)
        self.assertEqual(sheet(SMALL, text)[1]["settings"], SETTINGS)
        for derived in (0, 1, 2000):
            given = {**SETTINGS, "derived": derived}
            self.assertEqual(sheet(SMALL, json.dumps(given))[1]["settings"], given)
        for text, words in [
            ('{"weight": 50}', "SETTINGS: settings: the member `close_regret` is missing"),
            (text.replace("rounds", "round"), "the member `rounds` is missing"),
            (text.replace("}", ', "x": 1}'), "the member `x` doesn't belong here"),
            (text.replace("50", "101"), "`weight`: 101 is not within 0 to 100"),
            (text.replace("50", "1.0"), "`weight`: `1.0` is no whole number"),
            (text.replace("}", ', "derived": 2001}'), "`derived`: 2001 is not within 0 to 2,000"),
            (text.replace("}", ', "derived": null}'), "`derived`: null where a whole number"),
            (text.replace("50", "true"), "`weight`: true or false where a whole number is due"),
            ("[]", "an array where an object is due"),
            ("t.csv", "no JSON: Expecting value: line 1 column 1 (char 0); a file is given by"),
            ("x" * 5000, "no JSON"),
            ("", "no JSON"),
        ]:
            status, made, errors = sheet(SMALL, text)
            self.assertEqual((status, made, len(errors)), (2, None, 1), errors)
            self.assertIn(words, errors[0])

    def test_files(self) -> None:
        for words in (["absent.csv"], ["t.csv", "--settings", "absent"], ["."]):
            status, output, errors = run(command.main, {"t.csv": SMALL}, *words)
            self.assertEqual((status, output), (6, ""))
            self.assertRegex(errors, r"^sheet: \S+: [A-Z][a-z ]+\n$")

    def test_words(self) -> None:
        wrong: tuple[list[str], ...] = (
            [],
            ["t.csv", "{}", "--settings", "s"],
            ["t.csv", "{}", "--market", "m"],
            ["t.csv", "--trees", "x"],
            ["t.csv", "--odd"],
        )
        for words in wrong:
            status, output, errors = run(command.main, {"t.csv": SMALL}, *words)
            self.assertEqual((status, output), (1, ""), errors)

    def test_settings_may_stand_behind_an_option(self) -> None:
        text, trees = json.dumps(SETTINGS), "[]"
        for words in (["--trees", "f", text], [text, "--trees", "f"]):
            files = {"t.csv": SMALL, "f": trees}
            status, output, errors = run(command.main, files, "t.csv", *words)
            self.assertEqual((status, json.loads(output)["settings"]), (0, SETTINGS), errors)


if __name__ == "__main__":
    unittest.main()
