"""What one bidder needs to bid, on its page and from `ice-nets`; the hall is its tutorial's."""
import contextlib
import io
import re
import subprocess
import tempfile
import unittest
from pathlib import Path

from support import HERE, ROOT, SAMPLES, page_of, run, sample

from ice_page import nets_command

HALL = (ROOT / "examples/hall-session.journal").read_text()
PROGRAM = HERE.parent / "ice-nets"
STOPPED = HALL[: HALL.index("submit ")] + "end open\n"
NAMES = ("hall", "choir", "opera", "dance")


def with_bids(journal: str, *bids: tuple[str, str]) -> str:
    """The journal with these submissions, each with its verdict, in front of its own ones."""
    records = "".join(f"submit {bid}\nverdict {verdict}\n" for bid, verdict in bids)
    place = journal.index("submit ")
    return journal[:place] + records + journal[place:]


def told(journal: str, *words: str) -> tuple[int, str, str]:
    """Runs what `ice-nets` runs, on a journal: the status, and what it writes."""
    made, errors = io.BytesIO(), io.StringIO()
    output = io.TextIOWrapper(made, "utf-8", write_through=True)
    with tempfile.TemporaryDirectory() as folder:
        file = Path(folder, "some.journal")
        file.write_text(journal)
        with contextlib.redirect_stdout(output), contextlib.redirect_stderr(errors):
            try:
                status = nets_command.main([str(file), *words])
            except SystemExit as end:
                status = int(end.code or 0)
    return status, made.getvalue().decode(), errors.getvalue()


class OnItsPage(unittest.TestCase):
    """The sections of the page for one bidder."""

    def words(self, name: str, journal: str = STOPPED, *options: str) -> str:
        """The words of a page for a bidder."""
        return page_of(journal, "--bidder", name, *options).root.seen()

    def test_sets_at_the_prices(self) -> None:
        page = page_of(STOPPED, "--bidder", "choir", "--unit", "k€")
        self.assertEqual(
            page.table("Round 1: your sets at the prices"),
            [
                ["set", "costs", "leaves at least", "at most"],
                [
                    "buy monday + tuesdayprovisional, open · nodes 0–3",
                    "≈61.667185/3",
                    "≈−1.667−5/3",
                    "≈18.33355/3",
                ],
                [
                    "buy wednesdayopen · nodes 0, 4",
                    "≈15.83395/6",
                    "≈4.16725/6",
                    "≈14.16785/6",
                ],
                ["no tradecan’t be best · no nodes", "0", "0", "0"],
            ],
        )
        words = page.root.seen()
        for part in (
            "Of the 3 sets of your tree no other could be best at these prices.",
            "Your provisional set is “buy monday + tuesday” (nodes 0–3): your part of the best "
            "trade at lower values.",
            "by the middles of the intervals you want “buy wednesday” (nodes 0, 4), but your "
            "provisional set, “buy monday + tuesday” (nodes 0–3), could leave up to ≈14.167 (85/6) "
            "more.",
            "you may lack up to ≈15.833 (95/6), against “buy wednesday” (nodes 0, 4). By the new "
            "intervals that has to be at most ≈10.833 (65/6) (less by 5, “improve”), or 0; or some "
            "set has to leave over ≈10.833 (65/6) more than the provisional one",
            "in k€",
        ):
            self.assertIn(part, words)
        self.assertNotIn("Your bids", words)

    def test_a_set_that_is_best_for_sure(self) -> None:
        words = self.words("dance")
        # Two days cost 265/6 and are worth 50 to 60.
        self.assertIn("buy monday + wednesdaybest for sure · nodes 0–2", words)
        self.assertIn("provisional, can’t be best · no nodes", words)
        self.assertIn("Your present intervals pass it", words)
        self.assertIn("No other set can be best: what you want is clear.", words)

    def test_when_the_second_rule_asks_for_nothing(self) -> None:
        # The dance may lack 60 - 265/6 = 95/6 by its provisional set.
        for improve, says in (
            (0, "As “improve” is 0, this rule asks for nothing more."),
            (15, "has to be at most ≈0.833 (5/6) (less by 15,"),
            (16, "That is below 16 (“improve”), so this rule asks for nothing more."),
        ):
            journal = STOPPED.replace("settings 100 0 200 5 ", f"settings 100 0 200 {improve} ")
            self.assertIn(says, self.words("dance", journal))
        # At these prices the two days leave the choir 32 to 52, and Wednesday 4 to 14 at most.
        journal = STOPPED.replace("prices 6 170 200 95", "prices 1 14 14 16")
        self.assertIn("you may lack nothing, so this rule asks", self.words("choir", journal))
        journal = STOPPED.replace("prices 6 170 200 95", "prices 1 28 33 16")
        journal = journal.replace("settings 100 0 200 5 ", "settings 100 0 200 16 ")
        self.assertIn("has to be 0 (less by 16, “improve”)", self.words("dance", journal))

    def test_where_the_provisional_set_comes_from(self) -> None:
        for weight, says in (
            (100, "at lower values."),
            (0, "at upper values."),
            (30, "at values that are 30 % the lower and 70 % the upper one."),
        ):
            journal = STOPPED.replace("settings 100 ", f"settings {weight} ")
            self.assertIn(f"your part of the best trade {says}", self.words("opera", journal))

    def test_only_while_a_bid_is_awaited(self) -> None:
        self.assertNotIn("your sets at the prices", self.words("choir", HALL))
        for stop in ("end open", "refused 2 3 bids.0", "unread 2"):
            journal = STOPPED.replace("end open", stop)
            self.assertIn("Round 1: your sets at the prices", self.words("choir", journal))
        for name in ("ring.spent.session", "ring.spent.regret"):
            journal = sample(name)
            bidder = re.findall("^bidder ([^ ]+)", journal, re.M)[0]
            self.assertNotIn("your sets at the prices", self.words(bidder, journal))
            self.assertIn("The journal ends: no bids are awaited.", told(journal, bidder)[1])

    def test_a_round_by_its_number(self) -> None:
        self.assertIn("Round 1: your sets", self.words("choir", HALL, "--round", "1"))
        for number in ("0", "2", "-1"):
            status, _, errors = run(HALL, "--bidder", "choir", "--round", number)
            self.assertEqual((status, f"it has no round {number}" in errors), (2, True))
        status, _, errors = run(HALL, "--round", "1")
        self.assertEqual((status, "--round goes with --bidder" in errors), (1, True))

    def test_its_bids(self) -> None:
        journal = with_bids(
            HALL,
            ("choir 5 0 62 0 0 20 5 0 80 0 0 30", "42"),
            ("choir 5 0 61 0 0 20 5 0 60 0 0 30", "41 1"),
            ("choir 5 0 59 0 0 20 5 0 80 0 0 30", "40 1"),
            ("choir 2 60 20 3 80 30 0", "46"),
            ("opera 3 55 0 0 3 68 0 0", "43"),
            ("choir 5 0 76 0 0 20 5 0 80 0 0 30", "accepted"),
            ("choir 5 0 76 0 0 20 5 0 80 0 0 25", "44"),
        )
        rows = page_of(journal, "--bidder", "choir").table("Your bids")
        self.assertEqual(rows[0], ["round", "values by node", "verdict"])
        self.assertEqual([row[0] for row in rows[1:]], ["1"] * 6)
        self.assertEqual(
            [row[1] for row in rows[1:]],
            [
                "1: 62..80 4: 20..30",
                "1: 61..60 4: 20..30",
                "1: 59..80 4: 20..30",
                "lower: 60 20 upper: 80 30 0",
                "1: 76..80 4: 20..30",
                "1: 76..80 4: 20..25",
            ],
        )
        # At 62 two days leave 1/3 to 55/3, and by the middles 28/3, more than Wednesday's 55/6.
        self.assertEqual(
            [row[2] for row in rows[1:]],
            [
                "× refused (42): it doesn’t tell which set you want at the prices (first rule): by "
                "the middles of the intervals you want “buy monday + tuesday” (nodes 0–3), but "
                "“buy wednesday” (nodes 0, 4) could leave up to ≈13.833 (83/6) more",
                "× refused (41): a lower value is above the upper one: 61..60 at node 1",
                "× refused (40): an interval is wider than before: 59..80 at node 1, where 60..80 "
                "stood",
                "× refused (46): it doesn’t have one lower and one upper value for each node: 2 "
                "and 3 for 5",
                "● accepted: these are your intervals from here on",
                "× refused (44): a bid of yours was accepted in this round already, and the first "
                "one counts",
            ],
        )
        bold = page_of(journal, "--bidder", "choir").root.all("span", "value")
        self.assertEqual([part.text for part in bold if part.all("b")][:1], ["1: 62..80"])
        # The opera's days cost 295/6: at 68 it may lack 113/6, and 65 less their cost is asked.
        self.assertIn(
            "refused (43): it says too little that is new (second rule): by your provisional set, "
            "“no trade” (no nodes), you may lack up to ≈18.833 (113/6), against “buy tuesday + "
            "wednesday” (nodes 0–2); before it was ≈20.833 (125/6), and at most ≈15.833 (95/6), or "
            "0, would have counted, or a set that leaves over ≈15.833 (95/6) more than it for sure",
            self.words("opera", journal),
        )

    def test_a_verdict_that_its_numbers_dont_show(self) -> None:
        # The page retells it, and claims no reason.
        for verdict, means in (("42", "(first rule)"), ("43", "(second rule)")):
            journal = with_bids(HALL, ("choir 5 0 76 0 0 20 5 0 80 0 0 30", verdict))
            rows = page_of(journal, "--bidder", "choir").table("Your bids")
            self.assertTrue(rows[1][2].endswith(means), rows[1][2])

    def test_every_bid_of_every_sample(self) -> None:
        for file in SAMPLES:
            text = file.read_text()
            for name in re.findall("^bidder ([^ ]+)", text, re.M):
                bids = re.findall(rf"^submit {re.escape(name)} (.*)\nverdict (.*)\n", text, re.M)
                rows = page_of(text, "--bidder", name).table("Your bids")[1:]
                self.assertEqual(len(rows), len(bids), (file.name, name))
                for row, (_, verdict) in zip(rows, bids):
                    said = verdict if verdict == "accepted" else f"refused ({verdict.split()[0]})"
                    self.assertEqual(row[2][2 : 2 + len(said)], said)
                    if verdict in ("42", "43"):
                        self.assertRegex(row[2], "could leave|you may lack up to")

    def test_a_payment_in_coins(self) -> None:
        def told(name: str, coins: str) -> str:
            page = run(HALL, "--bidder", name, "--unit-coins", coins)[1]
            (coin,) = re.findall("in whole coins (.*?)<", page)[:1]
            return str(coin)

        both = ", as all payments are rounded"
        self.assertEqual(told("choir", "1"), "57 or 58" + both)
        self.assertEqual(told("choir", "2"), "57.5")
        self.assertEqual(told("hall", "1"), "57 or 58" + both)
        self.assertEqual(told("opera", "100"), "0")
        without = run(HALL, "--bidder", "choir")[1]
        self.assertNotIn("in whole coins", without)
        for words in (("--unit-coins", "1"), ("--bidder", "choir", "--unit-coins", "0")):
            status, page, errors = run(HALL, *words)
            self.assertEqual((status, page), (1, ""), errors)

    def test_at_most_400_bids_of_a_round(self) -> None:
        bids = [("opera 0 0", "46")] * 401
        rows = page_of(with_bids(HALL, *bids), "--bidder", "opera").table("Your bids")
        self.assertEqual(len(rows), 401)
        self.assertIn("refused (46)", rows[-1][2])


class AsText(unittest.TestCase):
    """The same from `ice-nets`."""

    def test_the_table(self) -> None:
        status, words, errors = told(STOPPED, "choir")
        self.assertEqual((status, errors), (0, ""))
        self.assertTrue(words.isascii())
        self.assertTrue(all(len(line) <= 100 for line in words.splitlines()[8:]))
        self.assertEqual(
            words.splitlines()[:9],
            [
                "For choir",
                "",
                "Round 1: your sets at the prices",
                "",
                "            costs  leaves at least         at most  set",
                "* ~61.667 (185/3)   ~-1.667 (-5/3)  ~18.333 (55/3)  buy monday + tuesday (nodes "
                "0-3): provisional, open",
                "   ~15.833 (95/6)    ~4.167 (25/6)  ~14.167 (85/6)  buy wednesday (nodes 0, 4): "
                "open",
                "                0                0               0  no trade (no nodes): can't be "
                "best",
                "",
            ],
        )
        said = " ".join(words.split())
        self.assertIn("By the new intervals that has to be at most ~10.833 (65/6)", said)

    def test_the_block_of_the_document(self) -> None:
        document = (ROOT / "docs/bidding.md").read_text()
        block = [line[4:] for line in document.splitlines() if line.startswith("    ")][1:]
        shown = [line for line in block if line]
        self.assertEqual(len(shown), 6)
        written = told(STOPPED, "choir")[1].splitlines()
        self.assertEqual(shown, [line for line in written[:8] if line])

    def test_the_same_sentences_as_the_page(self) -> None:
        bid = ("choir 5 0 62 0 0 20 5 0 80 0 0 30", "42")
        for journal, options in ((STOPPED, ()), (with_bids(HALL, bid), ("--round", "1"))):
            _, words, _ = told(journal, "choir", *options)
            page = page_of(journal, "--bidder", "choir", *options)
            said = " ".join(words.split())
            shown = [part for box in page.root.all("div", "advice") for part in box.all("p")]
            verdicts = [row[2][2:] for row in page.table("Your bids")[1:]]
            self.assertGreater(len(shown), 3)
            for sentence in [*(part.text for part in shown), *verdicts]:
                plain = sentence.translate(str.maketrans("−≈–’“”", "-~-'\"\""))
                self.assertIn(plain, said)

    def test_closed(self) -> None:
        status, words, _ = told(HALL, "opera")
        self.assertEqual(status, 0)
        self.assertEqual(
            words.splitlines()[2:],
            [
                "The session has closed: no bids are awaited.",
                "",
                "Your bids, by node",
                "",
                "Round 1: 0: 55..60",
                "  accepted: these are your intervals from here on",
            ],
        )

    def test_statuses(self) -> None:
        self.assertEqual(told(HALL)[0], 1)
        self.assertEqual(told(HALL, "choir", "--round", "x")[0], 1)
        for words, why in (
            (("nobody",), "no bidder is named nobody"),
            (("choir", "--round", "2"), "it has no round 2"),
        ):
            status, output, errors = told(HALL, *words)
            self.assertEqual((status, output, why in errors), (2, "", True))
        self.assertEqual(told("no journal\n", "choir")[0], 2)
        absent = subprocess.run([str(PROGRAM), "/absent", "x"], capture_output=True, check=False)
        self.assertEqual(absent.returncode, 6)
        with open("/dev/full", "wb") as full:
            command = [str(PROGRAM), str(ROOT / "examples/hall-session.journal"), "choir"]
            ran = subprocess.run(command, stdout=full, stderr=subprocess.PIPE, check=False)
        self.assertEqual(ran.returncode, 7)

    def test_standard_input(self) -> None:
        ran = subprocess.run(
            [str(PROGRAM), "-", "choir"], input=STOPPED, capture_output=True, text=True, check=False
        )
        self.assertEqual((ran.returncode, ran.stdout), told(STOPPED, "choir")[:2])


if __name__ == "__main__":
    unittest.main()
