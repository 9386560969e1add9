"""Where a search spent its branches: what is tested, what is only stated, and what stands."""
import hashlib
import os
import stat
import tempfile
import unittest
from pathlib import Path

from support import Page, call, page_of, sample

HEAD = """ice 2 session
settings 50 0 100 1 5 200
good A
bidder s 1
node sell 0 1 -10 -10
bidder b 0
node buy 0 1 20 30
settle 0
"""
SPENT = "spent 0 5\nset 0\nset 0\nnear 1 0 960\nend spent\n"
FINAL = "final 10\nset 1\nset 1\nnear 1 0 640\n"
RIVAL = "rival 10\nset 1\nset 1\nnear 1 0 640\nregret 0\n"
WITHOUT = "without 0 0\nset 0\nset 0\nnear 1 0 1280\n"
AT_FINAL = f"{HEAD}spent 0 10\nset 0\nset 0\nnear 1 0 640\nend spent\n"
AT_RIVAL = f"{HEAD}{FINAL}spent 0 14\nset 0\nset 0\nnear 1 0 640\nend spent\n"
AT_WITHOUT = f"{HEAD}{FINAL}{RIVAL}{WITHOUT}{SPENT}"
ASKS = """#!/bin/sh
echo "$1 $(sha256sum | cut -d' ' -f1)" >>"{log}"
echo "$({which})"
exit {status}
"""


def lead(page: Page) -> str:
    """The sentences at the top of a page."""
    return page.root.all("p", "lead")[0].text


def stop(journal: str) -> str:
    """The checker's answer on a journal whose search was spent."""
    lines = journal.splitlines()
    place = next(place for place, line in enumerate(lines, 1) if line.startswith("spent"))
    return f"no {place} closed"


def known(journal: str, *options: str) -> Page:
    """The page of a journal on which the checker's answer is told."""
    return page_of(journal, "--checked", stop(journal), *options)


class Gaps(unittest.TestCase):
    """How much a page says of a gap."""

    def test_how_much_is_known(self) -> None:
        for told, note, ends in (
            ("gap final 0 10", "every test of ice gap passed", "tested this, and every test passed"),
            (" gap final 0 10\n", "every test of ice gap passed", "and every test passed"),
            ("", "as the journal states: not tested", "the journal states this, and ice gap tests it"),
            ("refused 1 50 9", "as the journal states: not tested", "ice gap tests it"),
            ("no 12 above", "it fails a test: don’t rely on it", "ice gap answers “no 12 above”"),
            ("gap final 0 9", "it fails a test: don’t rely on it", "this fails a test"),
            ("gap rival 0 10", "it fails a test: don’t rely on it", "this fails a test"),
            ("yes 0 0/1", "it fails a test: don’t rely on it", "this fails a test"),
        ):
            page = known(AT_FINAL, "--gap", told)
            self.assertEqual(page.facts()["gap of the search"], ("10", note), told)
            self.assertIn(ends, lead(page), told)
            self.assertIn("Nothing is settled", lead(page))
            self.assertEqual(page.facts()["could be missed, at most"][0], "unknown")

    def test_a_page_without_a_gap(self) -> None:
        for name, told in (("two-settlements.session", "yes 0 0/1"), ("open.session", "")):
            page = page_of(sample(name), "--checked", told)
            self.assertNotIn("gap of the search", page.facts())

    def test_a_rival(self) -> None:
        # The final trade is worth 10: a rival of 0 to 14 leaves a regret of 0 to 4.
        page = known(AT_RIVAL, "--gap", "gap rival 0 14")
        self.assertIn("is the best one at lower values, and its regret is from 0 to 4.", lead(page))
        self.assertEqual(page.facts()["could be missed, at most"], ("4", "the regret, 40 % of the total"))
        self.assertIn("proven best", page.facts()["total value, at least"][1])
        for told in ("", "no 16 above", "gap rival 0 13"):
            page = known(AT_RIVAL, "--gap", told)
            self.assertIn("at lower values, and its regret isn’t known.", lead(page))
            self.assertEqual(page.facts()["could be missed, at most"][0], "unknown")

    def test_without_a_bidder(self) -> None:
        page = known(AT_WITHOUT, "--gap", "gap without 1 0 5")
        self.assertIn("The final trade stands, and no other trade can be worth over 0 more.", lead(page))
        self.assertIn("What each pays isn’t known: that wants the best trade without b ", lead(page))
        self.assertNotIn("Nothing is settled", lead(page))
        self.assertEqual(page.facts()["could be missed, at most"][0], "0")
        self.assertIn("proven best", page.facts()["total value, at least"][1])
        self.assertEqual(page.facts()["gap of the search"][0], "5")
        page = known(AT_WITHOUT, "--gap", "gap without 0 0 5")
        self.assertIn("don’t rely on it", page.facts()["gap of the search"][1])

    def test_nothing_is_proven_without_the_checker(self) -> None:
        for journal in (AT_RIVAL, AT_WITHOUT):
            for answer in ("", "no 12 above", "yes 0 0/1"):
                page = page_of(journal, "--checked", answer, "--gap", "gap rival 0 14")
                self.assertNotIn("proven best", page.root.seen())
                self.assertIn("before that search, and ice check tests it.", lead(page))

    def test_a_bidder_is_not_told(self) -> None:
        for journal in (AT_RIVAL, AT_WITHOUT):
            page = known(journal, "--gap", "gap rival 0 14", "--bidder", "b")
            self.assertNotIn("gap of the search", page.facts())
            self.assertNotIn("proven best", page.root.seen())
            self.assertNotIn("without", lead(page))


class Asking(unittest.TestCase):
    """How the program is asked."""

    def setUp(self) -> None:
        folder = tempfile.TemporaryDirectory()
        self.addCleanup(folder.cleanup)
        self.folder = Path(folder.name)
        self.journal, self.log = self.folder / "some.journal", self.folder / "log"

    def program(self, check: str, gap: str) -> str:
        """A program that answers so, and writes what it was asked of which bytes."""
        path = self.folder / "ice"
        which = f'if [ "$1" = gap ]; then echo "{gap}"; else echo "{check}"; fi'
        status = f'"$([ "{gap[:3]}" = gap ] && [ "$1" = gap ] && echo 0 || echo 3)"'
        path.write_text(ASKS.format(log=self.log, which=which, status=status))
        path.chmod(path.stat().st_mode | stat.S_IXUSR)
        return str(path)

    def page(self, journal: str, check: str, gap: str, *more: str) -> Page:
        """The page of a journal, of which this program is asked."""
        self.journal.write_text(journal)
        page = self.folder / "page.html"
        words = ["--check", "--program", self.program(check, gap), "-o", str(page), *more]
        status, errors = call(str(self.journal), *words)
        self.assertEqual(status, 0, errors)
        return Page(page.read_text())

    def asked(self) -> list[str]:
        """What the program was asked."""
        return self.log.read_text().splitlines()

    def test_both_are_asked_of_the_same_bytes(self) -> None:
        page = self.page(AT_FINAL, "no 9 closed", "gap final 0 10")
        self.assertEqual(page.facts()["gap of the search"][1], "every test of ice gap passed")
        digest = hashlib.sha256(AT_FINAL.encode()).hexdigest()
        self.assertEqual(self.asked(), [f"check {digest}", f"gap {digest}"])

    def test_a_gap_that_fails(self) -> None:
        page = self.page(AT_FINAL, "no 9 closed", "no 12 above")
        self.assertIn("don’t rely on it", page.facts()["gap of the search"][1])

    def test_a_file_that_changes_meanwhile(self) -> None:
        program = Path(self.program("no 9 closed", "gap final 0 10"))
        program.write_text(f"{program.read_text()}".replace("exit", f'echo >>"{self.journal}"\nexit', 1))
        self.journal.write_text(AT_FINAL)
        page = self.folder / "page.html"
        words = ["--check", "--program", str(program), "-o", str(page)]
        status, errors = call(str(self.journal), *words)
        self.assertEqual((status, len(self.asked())), (0, 2), errors)
        note = Page(page.read_text()).facts()["gap of the search"][1]
        self.assertEqual(note, "as the journal states: not tested")

    def test_it_is_asked_of_no_other_journal(self) -> None:
        self.page(sample("two-settlements.session"), "yes 0 0/1", "no 1 spent")
        self.page(AT_FINAL, "no 4 exchange", "gap final 0 10")
        self.assertEqual([line.split()[0] for line in self.asked()], ["check", "check"])

    def test_standard_input_is_not_read_twice(self) -> None:
        self.journal.write_text(AT_FINAL)
        page = self.folder / "page.html"
        before = os.dup(0)
        with open(self.journal, "rb") as source:
            os.dup2(source.fileno(), 0)
        try:
            program = self.program("no 9 closed", "gap final 0 10")
            status, errors = call("-", "--check", "--program", program, "-o", str(page))
        finally:
            os.dup2(before, 0)
            os.close(before)
        self.assertEqual(status, 0, errors)
        self.assertEqual(len(self.asked()), 1)
        note = Page(page.read_text()).facts()["gap of the search"][1]
        self.assertEqual(note, "as the journal states: not tested")

    def test_words_that_do_not_go_together(self) -> None:
        self.journal.write_text(AT_FINAL)
        status, errors = call(str(self.journal), "--check", "--gap", "gap final 0 10")
        self.assertEqual((status, "give one of them" in errors), (1, True))


if __name__ == "__main__":
    unittest.main()
