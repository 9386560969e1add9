"""The checker's answer: told or asked for, fitting or not."""
import hashlib
import os
import tempfile
import unittest
from pathlib import Path

from support import page_of, run, sample

SESSION = "two-settlements.session"
PROVEN = "proven best"


class Answers(unittest.TestCase):
    """Which answers a page believes."""

    def answer(self, journal: str, *options: str) -> tuple[str, str, bool]:
        """The answer that a page shows, its note, and whether the trade is called proven."""
        page = page_of(journal, *options)
        return *page.facts()["checker’s answer"], PROVEN in page.root.text

    def test_told(self) -> None:
        told = {
            "yes 0 0/1": ("yes", True),
            " yes 0 0/1\n": ("yes", True),
            "": ("not checked", False),
            "yes 0 1/1": ("no", False),
            "yes 0": ("no", False),
            "yes 1 0/1": ("no", False),
            "yes": ("no", False),
            "YES 0 0/1": ("no", False),
            "no 46 above": ("no", False),
            "no 63 closed": ("no", False),
            "refused 1 53 -": ("no verdict", False),
            "refused 1 50 7": ("no verdict", False),
            "unread 1": ("no verdict", False),
            "words refused": ("no verdict", False),
        }
        for text, (shown, proven) in told.items():
            value, note, called = self.answer(sample(SESSION), "--checked", text)
            self.assertEqual((value, called), (shown, proven), text)
            self.assertEqual("as told to this page" in note, shown == "yes")
            self.assertEqual("don’t rely on this page" in note, shown == "no")

    def test_each_kind(self) -> None:
        for name, text, proven in (
            ("two-settlements.regret", "yes 5", True),
            ("two-settlements.v1.session", "yes 0 0/1", True),
            ("empty-core.session", "yes 0 10/1", True),
        ):
            self.assertEqual(
                self.answer(sample(name), "--checked", text)[::2], ("yes", proven), name
            )

    def test_an_assignment_is_never_proven_best(self) -> None:
        journal = (
            "ice 1 assign\nsettings 50 0 100 1 5 200\ngood A\nbidder s 1\nnode sell 0 1 -10 -10\n"
            "bidder b 0\nnode buy 0 1 20 30\nassign\nset 1\nset 1\nend assign\n"
        )
        self.assertEqual(self.answer(journal, "--checked", "yes 10")[::2], ("yes", False))
        self.assertEqual(self.answer(journal, "--checked", "yes 20")[::2], ("no", False))

    def test_sets_that_do_not_add_up(self) -> None:
        session = sample(SESSION)
        trade = (
            "ice 1 assign\nsettings 50 0 100 1 5 200\n{} A\nbidder s 1\nnode sell 0 1 -10 -10\n"
            "bidder b 0\nnode buy 0 1 20 30\nassign\nset {}\nset {}\nend assign\n"
        )
        for journal, fits in (
            (session, True),
            (session.replace("final 1\n", "final 2\n"), False),
            (session.replace("payment b 1 1/2 31/2", "payment b 1 1/2 30/1"), False),
            (session.replace("threshold 1/2 0/1", "threshold 1/2 1/1"), False),
            (trade.format("good", 1, 1), True),
            (trade.format("good", 0, 1), False),
            (trade.format("good", 1, 0), True),
            (trade.format("exact", 1, 1), True),
            (trade.format("exact", 1, 0), False),
        ):
            words = page_of(journal).root.seen()
            self.assertEqual("don’t add up to what it states" in words, not fits, journal)


class Asked(unittest.TestCase):
    """The program is run on the bytes that the page shows."""

    def program(self, body: str) -> str:
        """A program in place of the checker."""
        folder = tempfile.TemporaryDirectory()
        self.addCleanup(folder.cleanup)
        file = Path(folder.name, "ice")
        file.write_text(f"#!/bin/sh\n{body}\n")
        os.chmod(file, 0o755)
        return str(file)

    def answer(self, body: str, journal: str | None = None) -> tuple[str, str, str]:
        """What a page shows of a program's answer."""
        page = page_of(journal or sample(SESSION), "--check", "--program", self.program(body))
        return *page.facts()["checker’s answer"], page.root.text

    def test_yes(self) -> None:
        value, note, words = self.answer('cat >/dev/null; echo "yes 0 0/1"')
        self.assertEqual(value, "yes")
        self.assertIn("“yes 0 0/1”, asked of ice check for this page: every test passed", note)
        self.assertIn(PROVEN, words)
        self.assertIn(hashlib.sha256(sample(SESSION).encode()).hexdigest(), words)
        self.assertIn("ice check read these bytes and said “yes 0 0/1”", words)

    def test_the_program_is_named(self) -> None:
        program = Path(self.program("cat >/dev/null; echo 'yes 0 0/1'"))
        other = program.with_name("<other>")
        program.rename(other)
        page = page_of(sample(SESSION), "--check", "--program", str(other))
        self.assertIn("asked of <other> check for this page", page.facts()["checker’s answer"][1])

    def test_same_bytes_and_words(self) -> None:
        journal = sample("airport-slots.session")
        with tempfile.TemporaryDirectory() as folder:
            self.answer(
                f'echo "$@" >{folder}/words; cat "$2" >{folder}/bytes; echo "yes 32 0/1"', journal
            )
            self.assertEqual(Path(folder, "bytes").read_text(), journal)
            self.assertEqual(Path(folder, "words").read_text(), "check /dev/stdin\n")

    def test_no(self) -> None:
        value, note, words = self.answer('cat >/dev/null; echo "no 12 above"; exit 3')
        self.assertEqual(value, "no")
        self.assertIn("“no 12 above”, where this journal asks for “yes 0 0/1”", note)
        self.assertNotIn(PROVEN, words)

    def test_a_yes_with_another_status_is_none(self) -> None:
        self.assertEqual(self.answer('cat >/dev/null; echo "yes 0 0/1"; exit 7')[0], "no")

    def test_no_answer(self) -> None:
        value, note, words = self.answer("cat >/dev/null; exit 70")
        self.assertEqual((value, "ended with status 70" in note), ("no verdict", True))
        self.assertNotIn(PROVEN, words)
        value, note, _ = self.answer('cat >/dev/null; echo "refused 1 53 -"; exit 2')
        self.assertEqual((value, "“refused 1 53 -”" in note), ("no verdict", True))

    def test_program_that_reads_nothing(self) -> None:
        journal = sample("two-settlements.regret").replace(
            "near 1 0 640\n", "branch 0 0\nnear 1 0 640\n" * 40000 + "near 0\n"
        )
        self.assertGreater(len(journal), 500000)
        self.assertEqual(self.answer('echo "no 9 count"; exit 3', journal)[0], "no")

    def test_a_warning_where_somebody_asked_in_vain(self) -> None:
        def warns(*options: str) -> list[str]:
            return [part.text for part in page_of(sample(SESSION), *options).root.all("dd", "warn")]

        self.assertEqual(warns(), [])
        self.assertEqual(warns("--bidder", "b"), [])
        self.assertEqual(warns("--check", "--program", self.program("exit 70")), ["no verdict"])

    def test_words_of_the_program(self) -> None:
        # The last line that it says is told where its answer isn't the one that is due; an open
        # journal has none. What it says before goes on at once.
        opened, words = sample("open.session"), "echo ice: it stops at line 26 >&2"
        for journal, body, told in (
            (opened, f'{words}; echo "no 26 closed"; exit 3', ""),
            (opened, f'{words}; echo "no 25 row"; exit 3', "ice: it stops at line 26\n"),
            (opened, f'{words}; exit 70', "ice: it stops at line 26\n"),
            (opened, "exit 70", ""),
            (
                opened,
                f'echo ice: building >&2; {words}; echo "no 26 closed"; exit 3',
                "ice: building\n",
            ),
            (sample(SESSION), 'printf "a\\033[2Jb\\nlast" >&2; echo "yes 0 0/1"', "a\\x1b[2Jb\n"),
        ):
            program = self.program(f"cat >/dev/null; {body}")
            status, _, errors = run(journal, "--check", "--program", program)
            self.assertEqual((status, errors), (0, told), body)

    def test_bad_journal_ends_the_program(self) -> None:
        status, _, errors = run(
            "ice 1 assign\n", "--check", "--program", self.program('cat >/dev/null; echo "yes 0"')
        )
        self.assertEqual((status, "line 2: the file ends" in errors), (2, True))

    def test_no_program(self) -> None:
        status, page, errors = run(sample(SESSION), "--check", "--program", "/nowhere/ice")
        self.assertEqual((status, page, "/nowhere/ice" in errors), (6, "", True))


if __name__ == "__main__":
    unittest.main()
