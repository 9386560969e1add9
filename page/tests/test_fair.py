"""Fair prices beside payments, and files that aren't fair prices of the journal."""
import tempfile
import unittest
from pathlib import Path

from support import HERE, Element, Page, call, opened, sample

PAIR = "two-settlements.session"
# The seller is paid 31/2, which the buyer pays: a price of 31/2 explains both.
EVEN = (HERE / "fair" / PAIR).read_text()
# One of three sells to one of three, and pays or is paid nothing for it: of prices that leave the
# third at most 5 to gain there is 5 alone, which is 5 from what the buyer pays and the seller gets.
EMPTY = "empty-core.session"
CORE = (HERE / "fair" / EMPTY).read_text()


class Pages(unittest.TestCase):
    """Makes pages of a journal and of fair prices."""

    def setUp(self) -> None:
        folder = tempfile.TemporaryDirectory()
        self.addCleanup(folder.cleanup)
        self.folder = Path(folder.name)
        self.page = self.folder / "page.html"

    def call(self, journal: str, fair: str, *more: str) -> tuple[int, str]:
        """The status, and what standard error has."""
        file, prices = self.folder / "some.journal", self.folder / "some.fair"
        file.write_text(journal)
        prices.write_text(fair)
        self.page.unlink(missing_ok=True)
        return call(str(file), "--fair", str(prices), "-o", str(self.page), *more)

    def section(self, journal: str, fair: str, *more: str) -> tuple[Page, Element]:
        """The page, and its section of fair prices."""
        status, errors = self.call(journal, fair, *more)
        self.assertEqual((status, errors), (0, ""))
        page = Page(self.page.read_text(encoding="utf-8"))
        (found,) = [
            each
            for each in page.root.all("section")
            if [head.text for head in each.all("h2")] == ["Fair prices"]
        ]
        return page, found


class Shown(Pages):
    """What a page shows."""

    def test_prices_that_explain_all(self) -> None:
        page, section = self.section(sample(PAIR), EVEN)
        self.assertEqual(page.table("Fair prices")[1:], [["A", "15.5"]])
        gaps = [["b", "15.5", "15.5", "0"], ["s", "−15.5", "−15.5", "0"]]
        self.assertEqual(page.table("Payments beside fair prices")[1:], gaps)
        words = section.text
        self.assertIn("the same for all, each bidder’s set costs just what it pays.", words)
        self.assertIn("nobody would gain by another set at them", words)
        self.assertNotIn("states", words)

    def test_prices_that_come_nearest(self) -> None:
        page, section = self.section(sample(EMPTY), CORE, "--unit", "k€")
        rows = page.table("Payments beside fair prices")[1:]
        self.assertEqual(rows[0][1:], ["10", "5", "5"])
        self.assertIn(["0", "−5", "5"], [cells[1:] for cells in rows])
        self.assertIn(["0", "0", "0"], [cells[1:] for cells in rows])
        words = section.text
        self.assertIn("what some bidder pays is 5 k€ from what its set costs", words)
        self.assertIn("distance, the greatest gap: 5 k€", words)
        self.assertIn("would gain at most 5 k€ by another set", words)

    def test_thirds_stand_exactly(self) -> None:
        fair = EVEN.replace("2 31", "3 46").replace("0/1", "1/6")
        page, section = self.section(sample(PAIR), fair)
        gaps = page.table("Payments beside fair prices")[1:]
        self.assertEqual(gaps[0], ["b", "15.5", "≈15.33346/3", "≈0.1671/6"])
        self.assertIn("is ≈0.167 (1/6) from what its set costs", section.text)

    def test_one_bidder_alone(self) -> None:
        page, section = self.section(sample(PAIR), EVEN, "--bidder", "s")
        rows = page.table("Payments beside fair prices")[1:]
        self.assertEqual(rows, [["s", "−15.5", "−15.5", "0"]])
        self.assertIn("the same for all, your set costs just what you pay.", section.text)

    def test_another_journals_prices(self) -> None:
        _, section = self.section(sample(PAIR), EVEN.replace("31", "30"))
        self.assertIn("isn’t the distance that the file of the prices states", section.text)

    def test_a_page_without(self) -> None:
        status, errors = call(str(HERE / "samples" / PAIR), "-o", str(self.page))
        self.assertEqual((status, errors), (0, ""))
        self.assertNotIn("Fair prices", self.page.read_text(encoding="utf-8"))


class Refused(Pages):
    """Files that aren't fair prices of the journal."""

    def refused(self, journal: str, fair: str, why: str) -> None:
        """Tests that there is no page, and that standard error names the file of prices."""
        status, errors = self.call(journal, fair)
        self.assertEqual((status, self.page.exists()), (2, False))
        self.assertRegex(errors, rf"some\.fair: {why}")

    def test_each_line(self) -> None:
        lines = CORE.splitlines()
        changes = {
            1: ["prices 1 5 5", "prices 0 5", "ice 2 session", "limit fairness den 500 1"],
            2: ["accuracy 500 0", "accuracy 500", "balance 1"],
            3: ["row 3 1 110", "row 0 1 1100", "row 0 0 110"],
            5: ["distance 10/2", "distance 5", "distance -5/1", "distance 5/0"],
            6: ["fairness 0", "fairness 16777217", "fairness"],
            7: ["hold 3 100 0", "hold 2 0 0", "hold 2 16777217 0", "hold 2 100"],
            8: ["row 0 1 10", "pool 0 101"],
            9: ["end closed", "end"],
        }
        for number, others in changes.items():
            for other in others:
                with self.subTest(other):
                    changed = [*lines[: number - 1], other, *lines[number:]]
                    self.refused(sample(EMPTY), "\n".join(changed) + "\n", f"line {number}: .")

    def test_each_end(self) -> None:
        lines = CORE.splitlines(keepends=True)
        for count in range(len(lines)):
            self.refused(sample(EMPTY), "".join(lines[:count]), f"line {count + 1}: .*the file ends")
        self.refused(sample(EMPTY), CORE[:-1], "line 9: ends without a newline")
        self.refused(sample(EMPTY), CORE + "end fair\n", "line 10: .*stands after the end")

    def test_order_of_bidders(self) -> None:
        twice = CORE.replace("hold 2 100 0\n", "hold 2 50 0\nhold 1 50 0\n")
        self.refused(sample(EMPTY), twice, "line 8: bidders out of their order")

    def test_too_many_rows(self) -> None:
        many = CORE.replace("row 0 1 110\n", "row 0 1 110\n" * 200)
        self.refused(sample(EMPTY), many, "line 203: more than 200 rows")

    def test_other_files_to_show_them_with(self) -> None:
        why = "they go with a session that has closed"
        self.refused(opened(sample(PAIR), 0), EVEN, why)
        self.refused(sample("two-settlements.regret"), EVEN, why)
        statement = sorted((HERE / "statements").iterdir())[0].read_text()
        self.refused(statement, EVEN, "they go with the journal, and this is a statement")

    def test_statuses(self) -> None:
        journal = str(HERE / "samples" / PAIR)
        absent = str(self.folder / "absent")
        status, errors = call(journal, "--fair", absent, "-o", str(self.page))
        self.assertEqual((status, f"{absent}: No such file" in errors), (6, True))
        self.assertEqual(call(journal, "--fair", str(self.folder), "-o", str(self.page))[0], 6)
        prices = self.folder / "some.fair"
        prices.write_text(EVEN)
        status, errors = call(journal, "--fair", str(prices), "-o", str(prices))
        self.assertEqual((status, "overwrite the fair prices" in errors), (1, True))
        self.assertEqual(prices.read_text(), EVEN)


if __name__ == "__main__":
    unittest.main()
