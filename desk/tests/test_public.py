"""The page for everybody: what it has, and that it has no bids."""
import re
import unittest

from support import EXAMPLES, NAMES, SEASON, Desk

JOURNAL = SEASON.read_text()


def with_other_bids(journal: str) -> str:
    """The journal with other names, bounds, bids and payments, and all that is published as it was.

    A page retells a journal and doesn't judge it, so its sums need not be right.
    """
    for number, name in enumerate(NAMES):
        journal = re.sub(rf"\b{name}\b", f"other{number}", journal)
    lines = []
    for line in journal.splitlines():
        word, *fields = line.split(" ")
        if word == "node":
            fields[-2:] = str(int(fields[-2]) - 3), str(int(fields[-1]) + 4)
        elif word == "submit":
            counts = (1, 2 + int(fields[1]))
            fields[1:] = [
                each if place in counts else str(int(each) // 2)
                for place, each in enumerate(fields[1:], 1)
            ]
        elif word == "payment":
            fields[1:] = "7", "1/2", "-9/4"
        elif word in ("final", "rival", "provisional"):
            fields = ["77"]
        lines.append(" ".join([word, *fields]))
    return "\n".join(lines) + "\n"


class Public(Desk):
    """The page of the season, open and closed."""

    def page(self, journal: str, *words: str) -> str:
        """The page of a journal."""
        file = self.folder / "some.journal"
        file.write_text(journal)
        status, page, errors = self.public("some.journal", *words)
        self.assertEqual((status, errors), (0, ""))
        return page

    def awaiting(self) -> str:
        """The season's journal as it waited for bids of round 2."""
        place = JOURNAL.index("submit ", JOURNAL.index("settle 1\n"))
        return JOURNAL[:place] + "end open\n"

    def test_it_has_no_bids(self) -> None:
        for journal in (JOURNAL, self.awaiting()):
            page = self.page(journal)
            self.assertEqual(page, self.page(with_other_bids(journal)))
            for name in NAMES:
                self.assertNotIn(name, page)
            self.assertNotIn("<script", page)

    def test_prices_regret_and_rules(self) -> None:
        page = self.page(self.awaiting(), "--unit=k€", "--title=Slots & more", "--date=\u05d0")
        for words in ("<bdi>Slots &amp; more</bdi>", "<bdi>\u05d0</bdi>"):
            self.assertIn(words, page)
        for words in ("▲ 146.5", ">705<", ">114<", "cap 2,000", "round 2"):
            self.assertIn(words, page)
        self.assertNotIn("units traded", page)

    def test_what_was_traded_in_all(self) -> None:
        page = self.page(JOURNAL)
        rows = re.findall(r'<th scope="row"[^>]*>([^<]*)</th><td class="right">([^<]*)</td></tr>', page)
        # By the final sets: the airport sells 9 units, a swap sells dep-0800 and one arr-1800,
        # and the charter line arr-0830.
        wanted = {"dep-0630": 2, "dep-0700": 2, "dep-0730": 1, "dep-0800": 1, "arr-0830": 1}
        wanted |= {"arr-1730": 2, "arr-1800": 1, "arr-1830": 2, "arr-2215": 0}
        self.assertEqual({name: int(count) for name, count in rows}, wanted)
        for words in ("Closed", "195.25", "after 3 rounds"):
            self.assertIn(words, page)

    def test_digests(self) -> None:
        line = "front 0 2545 " + "0f" * 32
        (self.folder / "list").write_text(f"{line}\n")
        page = self.page(JOURNAL, "list")
        self.assertIn(f"<code>{line}</code>", page)
        self.assertNotIn("salt", page.partition("</style>")[2])
        (self.folder / "list").write_text(f"{line} salted\n")
        self.assertIn("behind the salt", self.page(JOURNAL, "list"))
        (self.folder / "list").write_text(f"{line}\n<b>\n")
        status, _, errors = self.public("some.journal", "list")
        self.assertEqual(status, 2)
        self.assertIn("line 2 is no digest", errors)

    def test_what_the_checker_says(self) -> None:
        self.assertIn(">not asked<", self.page(JOURNAL))
        self.assertIn(">yes<", self.page(JOURNAL, "--checked=yes 32 0/1"))
        self.assertIn(">no<", self.page(JOURNAL, "--checked=yes 31 0/1"))
        self.assertIn(">no<", self.page(JOURNAL, "--checked=no 7 value"))
        opened = self.awaiting()
        lines = opened.count("\n")
        self.assertIn(">right so far<", self.page(opened, f"--checked=no {lines} closed"))

    def test_statuses(self) -> None:
        for status, words in (
            (2, (EXAMPLES / "hall.journal",)),
            (2, (EXAMPLES / "hall.json",)),
            (6, ("none.journal",)),
            (6, (SEASON, "none")),
            (7, (SEASON, "-o", "none/page.html")),
            (1, (SEASON, "one", "two")),
        ):
            with self.subTest(words):
                found, output, _ = self.public(*words)
                self.assertEqual((found, output), (status, ""))
        self.page(JOURNAL)
        self.assertEqual(self.public("some.journal", "-o", "some.journal")[0], 1)
        self.assertEqual((self.folder / "some.journal").read_text(), JOURNAL)


if __name__ == "__main__":
    unittest.main()
