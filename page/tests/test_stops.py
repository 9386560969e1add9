"""Every stop, in each place where it may stand."""
import unittest

from support import Page, page_of, sample

HEADS = ("final", "rival", "provisional", "without")
LIMITS = {"wide": "128 bits", "pivots": "2,000 pivots", "rows": "200 rows", "den": "2^32"}


class Places:
    """The places of a journal where it may stop."""

    def __init__(self, journal: str) -> None:
        self.lines = journal.splitlines()
        self.groups, self.prices, self.rounds = [], [], []
        settlement = 0
        for number, line in enumerate(self.lines):
            word, *rest = line.split()
            if word == "settle":
                settlement = int(rest[0])
            if word in HEADS:
                self.groups.append((settlement, number))
            if word == "prices":
                self.prices.append((settlement, number))
            if word == "row" and not self.lines[number + 1].startswith(("row", "balance")):
                self.rounds.append((settlement, number + 1))

    def spent(self, number: int, value: int, bound: int) -> str:
        """The journal whose search at a line was spent."""
        end = number + 1
        while self.lines[end].split()[0] in ("set", "branch", "near", "leaf", "dead"):
            end += 1
        return self.text(
            [
                *self.lines[:number],
                f"spent {value} {bound}",
                *self.lines[number + 1 : end],
                "end spent",
            ]
        )

    def stopped(self, number: int, *records: str) -> str:
        """The journal that stops at a line with these records."""
        return self.text([*self.lines[:number], *records])

    @staticmethod
    def text(lines: list[str]) -> str:
        """Lines as a file."""
        return "".join(f"{line}\n" for line in lines)


class Stops(unittest.TestCase):
    """Every stop has its page."""

    def check(self, page: Page, state: str, line: int) -> None:
        """Tests what every stopped journal's page has, made with the checker's answer."""
        facts = page.facts()
        self.assertEqual(facts["state"][0], state)
        self.assertEqual(facts["checker’s answer"][0], "right so far")
        where = "where bids are awaited" if state == "Open" else "where it stopped"
        up_to = f"every test passed up to line {line - 1:,}, {where}"
        self.assertEqual(facts["checker’s answer"][1], f"as told to this page: {up_to}")
        self.assertNotIn("surplus of the payments", facts)
        self.assertNotIn("don’t add up", page.root.seen())

    def spent(self, name: str, kind: str) -> None:
        """Spends each search of a sample in turn."""
        places = Places(sample(name))
        self.assertTrue(places.groups)
        for settlement, number in places.groups:
            head = places.lines[number].split()
            with self.subTest(f"{name}: {head} at settlement {settlement}"):
                journal = places.spent(number, int(head[-1]), 987654)
                page = page_of(journal, "--checked", f"no {number + 1} closed")
                self.check(page, "Search spent", number + 1)
                self.assertEqual("proven best" in page.root.seen(), head[0] != "final")
                lead = page.root.all("p", "lead")[0].text
                seeks = head[0]
                if head[0] == "without":
                    bidders = [
                        line.split()[1] for line in places.lines if line.startswith("bidder ")
                    ]
                    seeks += f" {bidders[int(head[1])]}"
                self.assertIn(f"search {seeks}:", lead)
                self.assertIn("9,876.54" if seeks == "provisional" else "987,654", lead)
                at = f"settlement {settlement}" if kind == "session" else "kind regret"
                self.assertEqual(page.facts()["state"][1], at)
                rows = page.table("Searches and") + page.table("More") + page.table("The last")
                self.assertTrue(any(row[0].endswith(f"{seeks}, spent") for row in rows))

    def test_spent_session(self) -> None:
        for name in ("airport-slots.session", "ring.session", "two-settlements.v1.session"):
            self.spent(name, "session")

    def test_spent_regret(self) -> None:
        self.spent("two-settlements.regret", "regret")

    def test_gap_is_in_tenths_of_a_per_cent_rounded_up(self) -> None:
        places = Places(sample("two-settlements.regret"))
        _, number = places.groups[0]
        for value, bound, gap in ((200, 201, "0.5"), (300, 301, "0.4"), (100, 250, "150.0")):
            page = page_of(places.spent(number, value, bound))
            self.assertIn(f"is possible, a gap of {gap} %", page.root.all("p", "lead")[0].text)
        page = page_of(places.spent(number, 0, 5))
        self.assertNotIn("a gap of", page.root.all("p", "lead")[0].text)

    def test_regret_is_unknown_before_it_is_stated(self) -> None:
        places = Places(sample("two-settlements.session"))
        known = {}
        for settlement, number in places.groups:
            word = places.lines[number].split()[0]
            page = page_of(places.spent(number, 0, 5))
            known[settlement, word] = page.facts()["could be missed, at most"][0]
        self.assertEqual(
            known,
            {
                (0, "final"): "unknown",
                (0, "rival"): "unknown",
                (0, "provisional"): "5",
                (1, "final"): "unknown",
                (1, "rival"): "unknown",
                (1, "without"): "0",
            },
        )

    def test_limits(self) -> None:
        places = Places(sample("airport-slots.session"))
        self.assertEqual([settlement for settlement, _ in places.prices], [0, 1, 2])
        for _, number in places.prices:
            for stage in ("accuracy", "balance"):
                for kind, words in LIMITS.items():
                    bits = "1" * 12
                    journal = places.stopped(
                        number, f"limit {stage} {kind} 12 5", f"pool 0 {bits}", "end limit"
                    )
                    page = page_of(journal, "--checked", f"no {number + 1} closed")
                    self.check(page, "Pricing limit", number + 1)
                    self.assertNotIn("proven best", page.root.seen())
                    lead = page.root.all("p", "lead")[0].text
                    self.assertIn(f"the stage {stage} of the pricing needs", lead)
                    self.assertIn(words, lead)

    def test_open(self) -> None:
        places = Places(sample("airport-slots.session"))
        for settlement, number in places.rounds:
            file = settlement + 2
            for record, words in (
                (
                    f"refused {file} 3 bids.0.lo.0",
                    "; the file that was given was refused, with fault 3 at bids.0.lo.0.",
                ),
                (f"refused {file} 61 -", "; the file that was given was refused, with fault 61."),
                (f"unread {file}", "; the file that was given could not be read."),
                ("end open", "."),
            ):
                page = page_of(
                    places.stopped(number, record), "--checked", f"no {number + 1} closed"
                )
                self.check(page, "Open", number + 1)
                lead = page.root.all("p", "lead")[0].text
                self.assertIn(f"Open: round {settlement + 1}: bids are awaited{words}", lead)
                self.assertIn("Nothing is settled", lead)


class Ends(unittest.TestCase):
    """How a journal closes."""

    def test_no_rounds(self) -> None:
        # Settlement 0 has a regret of 5; a session without rounds closes with it.
        journal = sample("open.session").replace(
            "settings 60 0 100 2 5 200", "settings 60 0 100 2 0 200"
        )
        lines = journal.splitlines()
        lines = lines[: lines.index("regret 5") + 1]
        closing = [
            "without 0 0",
            "set 0",
            "set 0",
            "near 0",
            "without 1 0",
            "set 0",
            "set 0",
            "near 0",
            "threshold 0/1 0/1",
            "payment s 0 0/1 0/1",
            "payment b 0 0/1 0/1",
            "end closed",
        ]
        page = page_of(Places.text([*lines, *closing]), "--checked", "yes 5 0/1")
        self.assertIn("Closed: this session has no rounds. Nobody trades.", page.root.seen())
        self.assertEqual(page.facts()["could be missed, at most"][0], "5")
        self.assertEqual(page.facts()["checker’s answer"][0], "yes")

    def test_all_rounds_held(self) -> None:
        journal = sample("two-settlements.session").replace(" 2 5 200\n", " 2 1 200\n")
        self.assertIn("Closed: the regret is 0,", page_of(journal).root.seen())
        late = journal.replace("rival 1\n", "rival 3\n").replace("regret 0\n", "regret 2\n")
        self.assertIn("Closed: its one round was held.", page_of(late).root.seen())


if __name__ == "__main__":
    unittest.main()
