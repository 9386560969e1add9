"""A page for one bidder alone: its own, what is published, and nothing of the others."""
import re
import unittest

from support import SAMPLES, call, opened, page_of, run, sample

AIRPORT = sample("airport-slots.session")
NAMES = re.findall("^bidder ([^ ]+)", AIRPORT, re.M)


PUBLISHED = ("ice", "settings", "good", "exact", "settle", "regret", "prices", "threshold", "end")
VALUES = ("final", "rival", "provisional", "without")


def with_other_bids(journal: str, name: str) -> str:
    """The journal with all else than what is published and what is this bidder's changed."""
    names = re.findall("^bidder ([^ ]+)", journal, re.M)
    mine, sets, whose, lines = names.index(name), 0, "", []
    for line in journal.splitlines():
        word, *fields = line.split()
        sets = sets + 1 if word == "set" else 0
        if word in ("bidder", "submit"):
            whose = fields[0]
        own = whose == name and word in ("bidder", "node", "submit", "verdict")
        own = own or sets - 1 == mine or word == "payment" and fields[0] == name
        if own or word in PUBLISHED:
            lines.append(line)
        elif word == "set":
            lines.append("set " + "0" * len(fields[0]))
        elif word in VALUES:
            lines.append(" ".join([word, *fields[:-1], str(int(fields[-1]) + 7)]))
        elif word in ("node", "submit"):
            lines.append(" ".join([word, *fields[:-1], str(int(fields[-1]) + 7)]))
        elif word == "payment":
            lines.append(f"payment {fields[0]} 77 7/3 -7/9")
        elif word == "verdict":
            lines.append("verdict 46")
        elif word == "near":
            lines.append("near 1 0 7")
        else:
            lines.append(line)
    return "".join(f"{line}\n" for line in lines)


class OneBidder(unittest.TestCase):
    """What one bidder sees."""

    def test_its_own(self) -> None:
        page = page_of(AIRPORT, "--bidder", "Meridian", "--checked", "yes 32 0/1")
        facts = page.facts()
        self.assertEqual(
            facts["your trade is worth, at least"],
            ("792", "at your lower values, in a trade proven best"),
        )
        paid = ("716.75 (2867/4)", "that value less what you keep")
        self.assertEqual(facts["you pay"], paid)
        self.assertEqual(facts["state"], ("Closed", "after 3 rounds"))
        self.assertEqual(facts["could be missed, at most"], ("32", "the regret"))
        self.assertEqual(facts["surplus of the payments"][0], "0")
        self.assertEqual(
            facts["checker’s answer"], ("yes", "as told to this page: every test passed")
        )
        titles = [page.root.all("head")[0].all("title")[0].text, page.root.all("h1")[0].text]
        self.assertEqual(titles, ["some.journal · for Meridian alone"] * 2)
        for caption in ("Who trades what", "What each pays", "Each bidder", "Bids, and how"):
            self.assertEqual(page.table(caption), [])
        self.assertEqual(
            [row[:2] for row in page.table("What could be missed")[1:]],
            [["0", "705"], ["1", "114"], ["2", "89"], ["3", "32"]],
        )
        self.assertEqual(len(page.table("Prices of one unit")), 10)
        self.assertEqual(len(page.root.all("article")), 1)
        words = page.root.seen()
        for part in (
            "You get: buy dep-0630 + dep-0700 + dep-0730.",
            "Your final set is worth 792 at lower values. You add 270 to the total (your Vickrey "
            "discount); the cut is 194.75 (779/4), so you keep 75.25 (301/4).",
            "Your tree",
        ):
            self.assertIn(part, words)

    def test_who_receives(self) -> None:
        facts = page_of(sample("two-settlements.session"), "--bidder", "s").facts()
        received = ("15.5 (31/2)", "minus that value, and what you keep")
        self.assertEqual(facts["you receive"], received)
        self.assertNotIn("you pay", facts)

    def test_who_keeps_nothing(self) -> None:
        # It adds 3 and the cut is 194.75; Polar-Cargo trades nothing.
        words = page_of(AIRPORT, "--bidder", "Charter-Sud").root.seen()
        says = "You add 3 to the total (your Vickrey discount); the cut is 194.75 (779/4), so you "
        self.assertIn(f"{says}keep 0.", words)
        words = page_of(AIRPORT, "--bidder", "Polar-Cargo").root.seen()
        self.assertIn("You get: no trade.", words)
        says = "Your final set is worth 0 at lower values. You add nothing to the total"
        self.assertIn(says, words)
        # As where the same total is reached without it.
        paid = ("payment b 1 1/2 31/2", "payment b 0 0/1 16/1")
        journal = sample("two-settlements.session").replace(*paid)
        words = page_of(journal, "--bidder", "b").root.seen()
        says = "You add nothing to the total (your Vickrey discount is 0), so you keep nothing."
        self.assertIn(says, words)

    def test_its_provisional_set(self) -> None:
        journal = opened(AIRPORT, 0)
        for name, set_, now in (
            ("Meridian", "“buy dep-0630 + dep-0700 + arr-2215” (nodes 0–2, 4)", "buy dep-0630"),
            ("Polar-Cargo", "“no trade” (no nodes)", "no trade"),
        ):
            words = page_of(journal, "--bidder", name).root.seen()
            self.assertIn(f"Your provisional set is {set_}: your part of the best trade", words)
            final = "Your final set, if the session closed now, by lower values alone"
            self.assertIn(f"{final}: {now}", words)
            self.assertNotIn("provisional set is", page_of(AIRPORT, "--bidder", name).root.text)
        page = page_of(journal)
        for words in ("Its provisional set", "Its final set, if the session closed now"):
            self.assertEqual(page.root.text.count(words), len(NAMES))
        says = "Its provisional set, by which bids are judged: buy dep-0630 + dep-0700 + arr-2215"
        self.assertIn(f"{says} (nodes 0–2, 4).", page.root.seen())

    def test_nothing_of_the_others(self) -> None:
        for name in NAMES:
            page = page_of(AIRPORT, "--bidder", name, "--checked", "yes 32 0/1")
            words = page.root.text
            for other in NAMES:
                self.assertEqual(other in words, other == name)
            for number in ("1,304", "10,796", "405 lines", "SHA-256"):
                self.assertNotIn(number, words)
            self.assertEqual(page.table("Searches and"), [])

    def test_every_sample(self) -> None:
        for file in SAMPLES:
            journal = file.read_text()
            names = re.findall("^bidder ([^ ]+)", journal, re.M)
            for name in names:
                page = page_of(journal, "--bidder", name)
                self.assertEqual(
                    [card.all("h3")[0].text for card in page.root.all("article")], [name]
                )

    def test_same_page_whatever_the_others_bid(self) -> None:
        # The seller's values, sets, bids and payment, the totals and the logs are others.
        journal = sample("two-settlements.session")
        lines = journal.splitlines()
        for number, other in {
            5: "node sell 0 1 -16 -12",
            9: "final -3",
            10: "set 1",
            12: "near 1 0 7777",
            13: "rival 2",
            18: "provisional 11",
            19: "set 1",
            25: "row 0 3 1",
            32: "submit someone 0 0",
            43: "final 9",
            44: "set 0",
            47: "rival 9",
            52: "without 0 -4",
            56: "without 1 8",
            58: "set 1",
            61: "payment s 9 8/3 -17/4",
        }.items():
            self.assertEqual(lines[number - 1].split()[0], other.split()[0])
            lines[number - 1] = other
        changed = "\n".join(lines) + "\n"
        pages = [
            run(text, "--bidder", "b", "--checked", "yes 0 0/1") for text in (journal, changed)
        ]
        self.assertEqual(pages[0][0], 0)
        self.assertEqual(pages[0], pages[1])
        self.assertNotEqual(run(journal)[1], run(changed)[1])

    def test_same_page_in_a_larger_session(self) -> None:
        for name in NAMES:
            changed = with_other_bids(AIRPORT, name)
            self.assertGreater(sum(a != b for a, b in zip(AIRPORT.split(), changed.split())), 150)
            options = ("--bidder", name, "--checked", "yes 32 0/1", "--title", "Slots")
            self.assertEqual(run(AIRPORT, *options), run(changed, *options), name)

    def test_same_page_while_bids_are_awaited(self) -> None:
        for settlement in (0, 2):
            journal = opened(AIRPORT, settlement)
            for name in NAMES:
                changed = with_other_bids(journal, name)
                self.assertNotEqual(journal, changed)
                pages = [run(text, "--bidder", name) for text in (journal, changed)]
                self.assertIn("your sets at the prices", pages[0][1])
                self.assertEqual(pages[0], pages[1], name)

    def test_stops_tell_nothing(self) -> None:
        for name, state in (
            ("ring.spent.session", "Search spent"),
            ("ring.spent.regret", "Search spent"),
            ("open.session", "Open"),
            ("refused.session", "Open"),
            ("unread.session", "Open"),
        ):
            journal = sample(name)
            bidder = re.findall("^bidder ([^ ]+)", journal, re.M)[0]
            line = (
                len(journal.splitlines())
                if "spent" not in name
                else journal.splitlines().index("spent 10 15") + 1
            )
            page = page_of(journal, "--bidder", bidder, "--checked", f"no {line} closed")
            self.assertEqual(page.facts()["state"][0], state)
            self.assertEqual(page.facts()["checker’s answer"][0], "right so far")
            lead = page.root.all("p", "lead")[0].text
            self.assertNotRegex(lead, "it found|possible|bids[.]|file")
            says = "Open: round 1: bids are awaited. Nothing is settled."
            self.assertEqual(says == lead, state == "Open")
            self.assertNotIn(f"{line} closed", page.root.text)

    def test_a_no_is_shown_without_its_line(self) -> None:
        page = page_of(AIRPORT, "--bidder", "Meridian", "--checked", "no 99 above")
        self.assertEqual(
            page.facts()["checker’s answer"],
            ("no", "not what this journal asks for: don’t rely on this page"),
        )

    def test_no_such_bidder(self) -> None:
        status, _, errors = run(AIRPORT, "--bidder", "Meridia")
        self.assertEqual((status, "no bidder is named Meridia" in errors), (2, True))
        self.assertEqual(call("x", "--bidder")[0], 1)


if __name__ == "__main__":
    unittest.main()
