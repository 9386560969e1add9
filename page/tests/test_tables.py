"""Tables of journals: heads and cells, rounding to coins, and the words of the command."""
import contextlib
import csv
import io
import json
import os
import tempfile
import tracemalloc
import unittest
from fractions import Fraction
from pathlib import Path
from unittest import mock

from support import ROOT, SAMPLES, sample

from ice_page import table_command
from ice_page.tables import read_tables, rounded
from ice_page.terminal import Ending

HALL = ROOT / "examples/hall-session.journal"
SEASON = ROOT / "examples/season-session.journal"
HEADS = {
    "payments": "bidder,value,vickrey,discount,discount_numerator,discount_denominator,"
    "payment,payment_numerator,payment_denominator",
    "trades": "trade,bidder,good,units",
    "prices": "settlement,good,price,price_numerator,price_denominator",
    "settlements": "settlement,final,rival,regret,provisional,provisional_numerator,"
    "provisional_denominator,violation,violation_numerator,violation_denominator,"
    "bids,accepted,refused",
    "bids": "round,number,bidder,verdict,node,meaning,lo,hi",
}


def run(*words: str) -> tuple[int, str, str]:
    """Runs the command in this process: the status, and both outputs."""
    output, errors = io.StringIO(), io.StringIO()
    with contextlib.redirect_stdout(output), contextlib.redirect_stderr(errors):
        try:
            status = table_command.main(list(words))
        except SystemExit as end:
            status = int(end.code or 0)
    return status, output.getvalue(), errors.getvalue()


def tables(journal: str | Path, *words: str) -> dict[str, list[list[str]]]:
    """The rows of each table of a journal, the heads first."""
    with tempfile.TemporaryDirectory() as folder:
        file = journal
        if isinstance(journal, str):
            file = Path(folder, "some.journal")
            file.write_text(journal)
        status, _, errors = run(str(file), f"{folder}/new/tables", *words)
        assert status == 0, errors
        files = Path(folder, "new/tables").iterdir()
        mark = ";" if "--semicolon" in words else ","
        return {
            each.stem: list(csv.reader(each.read_text().splitlines(), delimiter=mark))
            for each in files
        }


def records(file: Path, word: str) -> list[list[str]]:
    """The fields of all records of a word in a journal."""
    lines = [line.split(" ") for line in file.read_text().splitlines()]
    return [line[1:] for line in lines if line[0] == word]


class Cells(unittest.TestCase):
    """What stands in the tables of sessions that the tutorial and the examples reckon."""

    def test_payments(self) -> None:
        rows = tables(HALL)["payments"]
        self.assertEqual(rows[1], ["hall", "-20", "40", "37.5", "75", "2", "-57.5", "-115", "2"])
        self.assertEqual(rows[2], ["choir", "60", "5", "2.5", "5", "2", "57.5", "115", "2"])
        self.assertEqual([row[0] for row in rows[3:]], ["opera", "dance"])
        exact = [[row[0], row[2], *map("/".join, (row[4:6], row[7:9]))] for row in rows[1:]]
        self.assertEqual(exact, records(HALL, "payment"))

    def test_trades(self) -> None:
        self.assertEqual(
            tables(HALL)["trades"][1:],
            [
                ["final", "hall", "monday", "-1"],
                ["final", "hall", "tuesday", "-1"],
                ["final", "choir", "monday", "1"],
                ["final", "choir", "tuesday", "1"],
            ],
        )

    def test_prices(self) -> None:
        # 170/6, 200/6 and 95/6
        self.assertEqual(
            tables(HALL)["prices"][1:],
            [
                ["0", "monday", "28.333333", "85", "3"],
                ["0", "tuesday", "33.333333", "100", "3"],
                ["0", "wednesday", "15.833333", "95", "6"],
            ],
        )

    def test_settlements(self) -> None:
        first, last = tables(HALL)["settlements"][1:]
        self.assertEqual(first[:5], ["0", "40", "50", "10", "40"])
        ((violation, _),) = records(HALL, "accuracy")
        found = Fraction(int(first[8]), int(first[9]))
        self.assertEqual(found, Fraction(int(violation), 600))
        self.assertEqual(first[10:], ["1", "1", "0"])
        self.assertEqual(last, ["1", "40", "40", "0"] + [""] * 6 + ["0", "0", "0"])

    def test_bids(self) -> None:
        rows = tables(SEASON)["bids"][1:]
        submitted = records(SEASON, "submit")
        self.assertEqual([row[2] for row in rows], [fields[0] for fields in submitted])
        for row, fields in zip(rows, submitted):
            count = int(fields[1])
            low, high = fields[2 : 2 + count], fields[3 + count :]
            self.assertEqual(row[6:], [" ".join(low), " ".join(high)])
        judged = [" ".join(row[3:5]).strip() for row in rows]
        self.assertEqual(judged, [" ".join(fields) for fields in records(SEASON, "verdict")])
        rounds = [row[0] for row in rows]
        self.assertEqual([rounds.count(turn) for turn in "123"], [12, 14, 14])
        self.assertEqual([row[1] for row in rows[10:14]], ["11", "12", "1", "2"])
        self.assertTrue(rows[0][5].startswith("left the best set open: "))

    def test_an_open_session(self) -> None:
        found = tables(sample("open.session"))
        self.assertEqual((found["payments"][1:], found["bids"][1:]), ([], []))
        spent = tables(sample("ring.spent.session"))["trades"][1:]
        self.assertEqual({row[0] for row in spent}, {"found"})


class Open(unittest.TestCase):
    """What stands while a session waits: the provisional trade, not the best at lower values."""

    def test_the_provisional_trade(self) -> None:
        lines = HALL.read_text().splitlines()
        lines[next(n for n, line in enumerate(lines) if line.startswith("submit")) :] = ["end open"]
        place = lines.index(next(line for line in lines if line.startswith("provisional")))
        lines[place + 1 : place + 5] = ["set 1011", "set 00000", "set 111", "set 000"]
        rows = tables("\n".join(lines) + "\n")["trades"][1:]
        self.assertEqual(
            rows,
            [
                ["provisional", "hall", "tuesday", "-1"],
                ["provisional", "hall", "wednesday", "-1"],
                ["provisional", "opera", "tuesday", "1"],
                ["provisional", "opera", "wednesday", "1"],
            ],
        )


class Coins(unittest.TestCase):
    """Rounding by the largest remainder."""

    def test_by_hand(self) -> None:
        cases: list[tuple[list[str], int, list[str]]] = [
            (["5/2", "-5/2"], 1, ["3", "-3"]),
            (["1/3", "1/3", "-2/3"], 1, ["1", "0", "-1"]),
            (["2/3", "1/3", "-1"], 1, ["1", "0", "-1"]),
            (["1/3", "1/3", "-2/3"], 100, ["34/100", "33/100", "-67/100"]),
            (["7", "-3", "-2"], 1, ["7", "-3", "-2"]),
            ([], 1, []),
        ]
        for numbers, coins, wanted in cases:
            found = rounded(list(map(Fraction, numbers)), coins)
            self.assertEqual(found, list(map(Fraction, wanted)), numbers)

    def test_the_sum_stays(self) -> None:
        for file in (HALL, SEASON):
            for coins in (1, 10, 100):
                rows = tables(file, "--unit-coins", str(coins))["payments"]
                self.assertEqual(rows[0], [*HEADS["payments"].split(","), "coins"])
                found = [Fraction(row[-1]) for row in rows[1:]]
                exact = [Fraction(int(row[7]), int(row[8])) for row in rows[1:]]
                self.assertEqual(sum(found), sum(exact))
                self.assertTrue(all(abs(a - b) * coins < 1 for a, b in zip(found, exact)))
                self.assertTrue(all((each * coins).denominator == 1 for each in found))


class Forms(unittest.TestCase):
    """The files, and the document."""

    def test_heads_are_the_same_for_each_journal(self) -> None:
        for file in SAMPLES:
            found = {name: ",".join(rows[0]) for name, rows in tables(file).items()}
            self.assertEqual(found, HEADS, file)

    def test_a_document(self) -> None:
        status, output, _ = run(str(HALL), "--json", "--unit-coins", "1")
        found = json.loads(output)
        self.assertEqual((status, list(found)), (0, list(HEADS)))
        hall = found["payments"][0]
        numbers = [hall[head] for head in ("payment", "payment_numerator", "coins")]
        self.assertEqual(numbers, [-57.5, -115, -57])
        self.assertEqual(found["trades"][0]["units"], -1)
        self.assertIsNone(found["settlements"][1]["violation"])
        self.assertEqual(found["bids"][0]["node"], None)

    def test_the_name_that_the_option_had_before(self) -> None:
        now = run(str(HALL), "--json", "--unit-coins", "1")
        status, output, errors = run(str(HALL), "--json", "--round", "1")
        self.assertEqual((status, output), now[:2])
        self.assertEqual(errors, "ice-table: --round is called --unit-coins now\n")
        self.assertEqual(now[2], "")

    def test_cents(self) -> None:
        for coins, wanted in (("1", ["-57", "57"]), ("100", ["-57.5", "57.5"])):
            rows = tables(HALL, "--unit-coins", coins)["payments"]
            self.assertEqual([row[-1] for row in rows[1:3]], wanted)

    def test_semicolons(self) -> None:
        rows = tables(HALL, "--semicolon")["payments"]
        self.assertTrue(rows[0][0].startswith("\ufeffbidder"))
        self.assertEqual(rows[1][3:7], ["37,5", "75", "2", "-57,5"])


class Sizes(unittest.TestCase):
    """Bids of any number, in little memory."""

    def test_many_bids(self) -> None:
        # Two thousand bids of nobody, each of which took more than a kilobyte.
        bid = "submit b 1 5 1 18\n"
        journal = sample("two-settlements.session").replace(
            bid, "submit nobody 0 0\nverdict 45\n" * 2000 + bid
        )
        count = journal.count("submit ")
        self.assertGreater(count, 2000)
        with table_command.Aside() as aside:
            tracemalloc.start()
            self.addCleanup(tracemalloc.stop)
            *_, bids = read_tables(io.BytesIO(journal.encode()), None, aside)
            found = sum(1 for row in bids.rows if len(row) == len(bids.heads))
            peak = tracemalloc.get_traced_memory()[1]
            aside.seek(0)
            self.assertEqual(aside.read().count(b"submit nobody 0 0\nverdict 45\n"), 2000)
        self.assertEqual(found, count)
        self.assertLess(peak, 500_000)

    def test_places_that_take_no_more(self) -> None:
        with tempfile.TemporaryDirectory() as folder:
            file = Path(folder, "bids.csv")
            file.symlink_to("/dev/full")
            status, _, errors = run(str(HALL), folder)
            said = f"ice-table: {file}: No space left on device\n"
            self.assertEqual((status, errors), (7, said))
        with mock.patch.object(tempfile, "tempdir", "/nowhere"):
            status, _, errors = run(str(HALL), "--json")
        self.assertEqual((status, "/nowhere" in errors), (7, True))
        aside = table_command.Aside()
        self.addCleanup(aside.close)
        full = os.open("/dev/full", os.O_RDWR)
        os.dup2(full, aside.fileno())
        os.close(full)
        with self.assertRaisesRegex(Ending, "^a temporary file: No space left"):
            aside.write(b"x" * (1 << 20))


class Stops(unittest.TestCase):
    """What ends without tables."""

    def test_words(self) -> None:
        journal = str(HALL)
        wrong: tuple[list[str], ...] = (
            [],
            [journal],
            [journal, "folder", "--json"],
            [journal, "--json", "--semicolon"],
            [journal, "--json", "--unit-coins", "0"],
            [journal, "--json", "--unit-coins", "coin"],
        )
        for words in wrong:
            status, output, errors = run(*words)
            self.assertEqual((status, output), (1, ""), words)
            self.assertIn("ice-table: ", errors)

    def test_never_over_the_journal(self) -> None:
        with tempfile.TemporaryDirectory() as folder:
            file = Path(folder, "bids.csv")
            file.write_bytes(HALL.read_bytes())
            self.assertEqual(run(str(file), folder)[0], 1)
            self.assertEqual(file.read_bytes(), HALL.read_bytes())

    def test_files(self) -> None:
        with tempfile.TemporaryDirectory() as folder:
            bad = Path(folder, "bad.journal")
            bad.write_text("ice 1 session\nsettings\n")
            for words, wanted in [
                ([str(bad), folder], (2, "line 2")),
                ([f"{folder}/absent", folder], (6, "absent: No such file")),
                ([folder, folder], (6, "Is a directory")),
                ([str(HALL), str(bad)], (7, "bad.journal: File exists")),
                ([str(HALL), f"{bad}/inside"], (7, "Not a directory")),
            ]:
                status, _, errors = run(*words)
                self.assertEqual(status, wanted[0], errors)
                self.assertIn(wanted[1], errors)


if __name__ == "__main__":
    unittest.main()
