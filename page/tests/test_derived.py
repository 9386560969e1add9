"""Derived goods: journals of version 3, which the program doesn't read yet."""
import io
import unittest

from support import page_of, run, sample

from ice_page.checker import due
from ice_page.journal import BadJournal, Journal, read_journal
from ice_page.lines import Lines

# A seller of three units at 0, and three buyers of two at 10 each, of whom one can be served. At a
# multiplier of half a unit's worth, 2048, none gains, and the seller's units come to 1.
HEAD = """settings 50 0 100 1 0 200 10
good A
bidder s 3
node sell 0 3 0 0
bidder b 0
node buy 0 2 10 10
bidder c 0
node buy 0 2 10 10
bidder d 0
node buy 0 2 10 10
"""
GOOD = "derive 1\namounts 1 1 0 1\namounts 2 1 0 1\namounts 3 1 0 1\ntolled 1 0 2048\n"
SETS = "set 1\nset 1\nset 0\nset 0\n"
TOLL = "tolled 1 1 40960\n"
FINAL, RIVAL = f"final 10\n{SETS}{TOLL}", f"rival 10\n{SETS}{TOLL}regret 0\n"
REGRET = f"ice 3 regret\n{HEAD}{GOOD}{FINAL}{RIVAL}end regret\n"
# Without the seller nothing is traded: at 20480 no buyer gains. Without a buyer another is served.
WITHOUT = [
    "without 0 0\nset 0\nset 0\nset 0\nset 0\ntolled 1 0 20480\n",
    f"without 1 10\nset 1\nset 0\nset 1\nset 0\n{TOLL}",
    f"without 2 10\n{SETS}{TOLL}",
    f"without 3 10\n{SETS}{TOLL}",
]
# The seller is missed by 10, and each buyer by nothing: all of the 10 goes to the seller.
PAID = """threshold 0/1 0/1
payment s 10 10/1 -10/1
payment b 0 0/1 10/1
payment c 0 0/1 0/1
payment d 0 0/1 0/1
end closed
"""
SPLIT = GOOD.replace("tolled 1 0 2048", "branch 1 0\ntolled 1 0 2048\ntolled 0")
SESSION = "".join(
    ["ice 3 session\n", HEAD, "settle 0\n", GOOD, FINAL, GOOD, SPLIT, RIVAL, *WITHOUT, PAID]
)


def read(text: str) -> Journal:
    """The journal of a text."""
    return read_journal(Lines(io.BytesIO(text.encode())))


class Derived(unittest.TestCase):
    """What a page reads and shows of derived goods."""

    def refused(self, text: str, line: int, words: str) -> None:
        """Tests that there is no journal, for what is wrong with this line."""
        with self.assertRaisesRegex(BadJournal, f"^line {line}: .*{words}"):
            read(text)

    def test_a_regret(self) -> None:
        journal = read(REGRET)
        self.assertEqual((journal.version, journal.settings.derived), (3, 10))
        self.assertEqual(list(journal.settings.members().values()), [50, 0, 100, 1, 0, 200, 10])
        final, rival = journal.last.groups
        self.assertEqual((len(final.derived), len(rival.derived)), (1, 0))
        self.assertEqual((final.value, final.sets, due(journal)), (10, list("1100"), "yes 0"))
        for group in (final, rival):
            assert group.log is not None
            self.assertEqual((group.log.leaves, group.log.size), (1, len(TOLL)))

    def test_a_session(self) -> None:
        journal = read(SESSION)
        self.assertEqual([len(group.derived) for group in journal.last.groups], [1, 2, 0, 0, 0, 0])
        self.assertEqual([log.branches for log in journal.last.derived], [0, 0, 1])
        self.assertEqual(due(journal), "yes 0 0/1")
        self.assertEqual([int(each.payment) for each in journal.payments], [-10, 10, 0, 0])

    def test_where_the_branches_are_spent(self) -> None:
        spent = f"spent 0 10\n{SETS.replace('1', '0')}{TOLL}end spent\n"
        journal = read(f"ice 3 session\n{HEAD}settle 0\n{GOOD}{spent}")
        self.assertEqual((journal.end.word, len(journal.last.derived)), ("spent", 1))

    def test_none_are_stated(self) -> None:
        leaf = "tolled 1 0 20480\n"
        text = REGRET.replace(GOOD, "").replace(TOLL, leaf)
        for settings in ("settings 50 0 100 1 0 200 10", "settings 50 0 100 1 0 200"):
            journal = read(text.replace("settings 50 0 100 1 0 200 10", settings))
            self.assertEqual(journal.last.derived, [])
        self.assertNotIn("derived", journal.settings.members())

    def test_a_page_counts_them(self) -> None:
        for text, words in (
            (REGRET, "1 derived good of 10"),
            (SESSION, "3 derived goods of 10: 3 (settlement 0)"),
            (REGRET.replace(GOOD, ""), "0 derived goods of 10"),
        ):
            page = page_of(text).root
            self.assertIn(words, page.text)
            self.assertIn("10 derived goods", page.all("footer")[0].text)
        self.assertIn("1 branch step of 200", page_of(SESSION).root.text)
        self.assertNotIn("derived", page_of(sample("two-settlements.session")).root.text)

    def test_what_is_due(self) -> None:
        other = REGRET.replace
        self.refused(other("amounts 1 1 0 1", "amounts 2 1 0 1"), 14, "bidders .* ascend")
        self.refused(other("amounts 2 1 0 1", "amounts 4 1 0 1"), 15, "bidders .* ascend")
        self.refused(other("derive 1\n", "derive 1\nderive 1\n"), 13, "where `amounts` is due")
        self.refused(other("derive 1\n", ""), 12, "where `final` or `spent` is due")
        self.refused(other("tolled 1 0 2048\n", ""), 16, "where `tolled` or `branch`")
        self.refused(other("tolled 1 0 2048", "near 1 0 2048"), 16, "where `tolled` or `branch`")
        self.refused(other("regret 0\n", f"{GOOD}regret 0\n"), 29, "where `regret` is due")
        self.refused(other("end regret\n", f"{GOOD}end regret\n"), 30, "where `end` is due")
        self.refused(other(" 10\ngood", " 2001\ngood"), 2, "is no `settings` record")
        self.refused(other(" 10\ngood", " 0\ngood"), 2, "is no `settings` record")

    def test_earlier_versions_have_none(self) -> None:
        for version, leaf in ((1, "leaf"), (2, "near 1 0")):
            text = REGRET.replace("ice 3", f"ice {version}")
            self.refused(text, 12, "`derive 1` stands where `final` or `spent` is due")
            text = text.replace(GOOD, "")
            self.refused(text, 17, "`tolled 1 1 40960` stands where")
            text = text.replace(TOLL, f"{leaf} 20480\n")
            for settings, count in (("200 10\n", 10), ("200\n", 0)):
                journal = read(text.replace("200 10\n", settings))
                self.assertEqual((journal.version, journal.settings.derived), (version, count))
            for record in ("derive 1", "amounts 1 1 0 1", "tolled 0"):
                self.refused(text.replace("end regret", record), 25, f"`{record}` stands where")

    def test_for_one_bidder(self) -> None:
        status, page, errors = run(SESSION, "--bidder", "b")
        self.assertEqual((status, errors), (0, ""))
        self.assertNotIn("settlement 0)", page)


if __name__ == "__main__":
    unittest.main()
