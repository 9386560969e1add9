"""Full names from a table, links to each bidder, headings, and sets that don't add up."""
import re
import tempfile
import textwrap
import unittest
from pathlib import Path

import browser
from support import ROOT, SAMPLES, opened, page_of, run, sample

from ice_page.markup import foreign, text
from ice_page.plain import isolated, isolated_lines, plain_around

HALL = (ROOT / "examples/hall-session.journal").read_text()
TABLE = "name,full name\nchoir,Kammerchor der Universität\nmonday,\"Monday, 7 December\"\n"


class Named(unittest.TestCase):
    """A page with full names."""

    def named(self, table: str | bytes, *options: str, journal: str = HALL) -> tuple[int, str, str]:
        """Makes a page by a table of names: the status, the page, and what standard error has."""
        with tempfile.TemporaryDirectory() as folder:
            file = Path(folder, "names.csv")
            file.write_bytes(table if isinstance(table, bytes) else table.encode())
            return run(journal, "--names", str(file), *options)

    def test_names_stand_in_the_place_of_the_short_ones(self) -> None:
        for more in ((), ("--bidder", "choir")):
            status, page, errors = self.named(TABLE, *more)
            self.assertEqual((status, errors), (0, ""))
            for full, short in (("Kammerchor der Universität", "choir"), ("Monday, 7", "monday")):
                self.assertIn(full, page)
                self.assertNotIn(short, page.partition("</style>")[2])

    def test_bids_and_refusals_have_them(self) -> None:
        _, page, _ = self.named("name;full name\nopera;Die Oper\n")
        self.assertIn("Die Oper", page)
        self.assertNotIn("opera", page.partition("</style>")[2])

    def test_tables_of_spreadsheets(self) -> None:
        for table in (TABLE.replace("\n", "\r\n"), "\ufeff" + TABLE, TABLE + ",\n\n"):
            self.assertEqual(self.named(table)[0], 0)

    def test_what_is_refused(self) -> None:
        refused: tuple[tuple[str | bytes, str], ...] = (
            ("", "line 1: the heads are"),
            ("choir,Chor\n", "line 1: the heads are"),
            ("name,full name\nchoir,\n", "line 2: a name and a full name are due"),
            ("name,full name\nnobody,Nobody\n", "no bidder and no good is named `nobody`"),
            ("name,full name\nchoir,A\nchoir,B\n", "line 3: `choir` stands twice"),
            ("name,full name\nchoir,A\nopera,A\n", "line 3: `A` stands twice"),
            ("name,full name\nchoir,A\u202eB\n", "no control characters"),
            ('name,full name\nchoir,"A\nopera,B\n', "no table in CSV"),
            ("name,full name\nchoir," + "A" * 61 + "\n", "at most 60 letters"),
            (b"name,full name\nchoir,\xfc\n", "no UTF-8"),
            ("name,full name\n" + "\n" * 65_536, "longer than 65,536 bytes"),
        )
        for table, words in refused:
            status, page, errors = self.named(table)
            self.assertEqual((status, page), (2, ""), table[:40])
            self.assertIn(words, errors)

    def test_a_statement_takes_the_table_of_all(self) -> None:
        statement = (ROOT / "page/tests/statements/two-settlements.s").read_text()
        table = "name,full name\ns,The seller\nb,The buyer\n"
        status, page, errors = self.named(table, journal=statement)
        self.assertEqual((status, errors), (0, ""))
        self.assertIn("The seller", page)
        self.assertNotIn("The buyer", page)

    def test_markup_in_a_name_is_words(self) -> None:
        self.assertIn("&lt;b&gt;x", self.named("name,full name\nchoir,<b>x\n")[1])

    def test_the_table_is_not_written_over(self) -> None:
        with tempfile.TemporaryDirectory() as folder:
            file = Path(folder, "names.csv")
            file.write_text(TABLE)
            status, _, errors = run(HALL, "--names", str(file), "-o", str(file))
            self.assertEqual(status, 1)
            self.assertIn("would overwrite the names", errors)
            self.assertEqual(file.read_text(), TABLE)


HEBREW, ARABIC = "\u05ea\u05d6\u05de\u05d5\u05e8\u05ea", "\u0623\u0648\u0628\u0631\u0627"
BEFORE, BEHIND = "\u2068", "\u2069"


def turned(journal: str) -> str:
    """A table that gives each bidder and each good of a journal a name from right to left."""
    names = dict.fromkeys(re.findall(r"(?m)^(?:bidder|good|exact|statement) (\S+)", journal))
    rows = (f"{name},{HEBREW} {number}\n" for number, name in enumerate(names))
    return "name,full name\n" + "".join(rows)


class FromRightToLeft(Named):
    """A name from right to left turns nothing of what stands beside it."""

    def alone(self, page: str, least: int) -> None:
        """Tests that each such name on a page is an isolate, and that there are so many."""
        found = page.count(HEBREW)
        self.assertGreaterEqual(found, least)
        # In a drawing its number may be in the next line.
        whole = re.findall(rf"{BEFORE}{HEBREW}(?: \d+)?{BEHIND}", page)
        self.assertEqual(len(whole), found)

    def test_pages_of_all_samples(self) -> None:
        for file in SAMPLES:
            journal = file.read_text()
            status, page, errors = self.named(turned(journal), journal=journal)
            self.assertEqual((status, errors), (0, ""), file.name)
            self.alone(page, 2)

    def test_a_name_that_goes_on_in_the_next_line(self) -> None:
        name = isolated(f"{HEBREW} {HEBREW}")
        lines = textwrap.wrap(f"buy {name} + a", 12)
        self.assertEqual(lines, [f"buy {BEFORE}{HEBREW}", f"{HEBREW}{BEHIND} + a"])
        wanted = [f"buy {BEFORE}{HEBREW}{BEHIND}", f"{BEFORE}{HEBREW}{BEHIND} + a"]
        self.assertEqual(isolated_lines(lines), wanted)
        self.assertEqual(isolated_lines(["a b", "c"]), ["a b", "c"])

    def test_pages_of_bidders_and_of_a_session_that_waits(self) -> None:
        airport = sample("airport-slots.session")
        for journal in (airport, opened(airport, 2)):
            for more in ((), ("--bidder", "Meridian")):
                _, page, _ = self.named(turned(journal), *more, journal=journal)
                self.alone(page, 20)

    def test_which_names_are_isolates(self) -> None:
        for name in ("Kammerchor", "Bühne 7", "合唱团", "Хор", "हॉल 2"):
            self.assertEqual(isolated(name), name)
        for name in (HEBREW, ARABIC, f"Opera {ARABIC} 2", "\u0662 Opera"):
            self.assertEqual(isolated(name), f"{BEFORE}{name}{BEHIND}")

    def test_only_what_stands_around_a_name_stays(self) -> None:
        name = isolated(HEBREW)
        self.assertEqual(text(f"buy 2 {name} + <b>"), f"buy 2 {name} + &lt;b&gt;")
        for mark in (BEFORE, BEHIND, "\u202e", "\u200f", "\x1b"):
            spelled = mark.encode("unicode_escape").decode()
            self.assertEqual(plain_around(f"a{mark}b"), f"a{spelled}b")
            self.assertEqual(plain_around(f"{name}{mark}{name}"), f"{name}{spelled}{name}")
        inside = f"{BEFORE}a\u202eb{BEHIND}"
        self.assertEqual(plain_around(inside), f"{BEFORE}a\\u202eb{BEHIND}")
        # What others wrote has no marks at all, since it is an element of its own.
        self.assertEqual(foreign(name), f"<bdi>\\u2068{HEBREW}\\u2069</bdi>")

    @browser.NEEDS
    def test_a_browser_shows_them_in_their_order(self) -> None:
        table = f"name,full name\nmonday,{HEBREW}\ntuesday,{ARABIC}\n"
        page = self.named(table)[1]
        bare = page.replace(BEFORE, "").replace(BEHIND, "")
        found, wrong = browser.measured([page, bare], 1160)
        trade = f"sell {BEFORE}{HEBREW}{BEHIND} + {BEFORE}{ARABIC}{BEHIND}; receives "
        lefts = found["lefts"][trade]
        self.assertLess(lefts[HEBREW], lefts[ARABIC])
        # Without the marks they would be turned round.
        lefts = wrong["lefts"][trade.replace(BEFORE, "").replace(BEHIND, "")]
        self.assertGreater(lefts[HEBREW], lefts[ARABIC])


class Ways(unittest.TestCase):
    """Links, headings, and the first sentence."""

    def test_payments_and_trades_lead_to_each_bidder(self) -> None:
        page = page_of(HALL)
        cards = {card.attributes["id"]: card for card in page.root.all("article")}
        for class_ in ("paid", "matrix"):
            (found,) = page.root.all("table", class_)
            links = found.all("a")
            self.assertEqual(len(links), 4, class_)
            for link in links:
                card = cards[link.attributes["href"][1:]]
                self.assertEqual(card.all("h3")[0].text, link.text)

    def test_a_page_of_one_bidder_tells_no_number(self) -> None:
        (card,) = page_of(HALL, "--bidder", "opera").root.all("article")
        self.assertNotIn("id", card.attributes)

    def test_payments_and_trades_have_headings(self) -> None:
        heads = [head.text for head in page_of(HALL).root.all("h2")]
        self.assertEqual(heads[:2], ["What each pays", "Who trades what"])
        heads = [head.text for head in page_of(sample("open.session")).root.all("h2")]
        self.assertNotIn("What each pays", heads)

    def test_sets_that_do_not_add_up_are_the_first_sentence(self) -> None:
        first = "The sets of this journal don’t add up to what it states."
        for old, new in (("final 40\n", "final 41\n"), ("\nregret 10\n", "\nregret 11\n")):
            damaged = HALL.replace(old, new)
            self.assertNotEqual(damaged, HALL)
            (lead,) = page_of(damaged).root.all("p", "lead")
            self.assertTrue(lead.text.startswith(first), lead.text)
        self.assertNotIn("add up", page_of(HALL).root.seen())
        self.assertNotIn("add up", page_of(damaged, "--bidder", "choir").root.seen())


if __name__ == "__main__":
    unittest.main()
