"""The journals in the tables of the program's tests, with the answers that stand beside them."""
import unittest

from support import ROOT, answer, judged_in_tables

from ice_recheck.journals import check, gap

WHOLE = ("sale.regret", "sale.session", "rounds.session", "core.session")


class Rows(unittest.TestCase):
    """Each row in which a journal is checked, and journals that are made here."""

    @unittest.skipUnless(judged_in_tables(), "the tables aren't here, or Python is older than 3.11")
    def test_answers(self) -> None:
        rows = judged_in_tables()
        self.assertGreater(len(rows), 100)
        for name, journal, outputs, status in rows:
            with self.subTest(name):
                line, ended = check(journal)
                self.assertIn(f"{line}\n", outputs)
                self.assertEqual(ended, status)

    @unittest.skipUnless(judged_in_tables(), "the tables aren't here, or Python is older than 3.11")
    def test_gaps(self) -> None:
        rows = judged_in_tables("gap")
        self.assertGreater(len(rows), 100)
        for name, journal, outputs, status in rows:
            with self.subTest(name):
                line, ended = gap(journal)
                self.assertIn(f"{line}\n", outputs)
                self.assertEqual(ended, status)

    @unittest.skipUnless((ROOT / "tests" / "files").is_dir(), "the tables aren't here")
    def test_cut_journals_are_short(self) -> None:
        for file in (ROOT / "tests" / "files" / name for name in WHOLE):
            lines = file.read_text().splitlines(keepends=True)
            for count in range(1, len(lines)):
                found = answer("".join(lines[:count]))
                self.assertEqual(found, (f"no {count + 1} short", 3), (file.name, count))

    @unittest.skipUnless((ROOT / "tests" / "files").is_dir(), "the tables aren't here")
    def test_gaps_of_cut_journals(self) -> None:
        for file in sorted((ROOT / "tests" / "files").glob("spent-*")):
            lines = file.read_text().splitlines(keepends=True)
            for count in range(1, len(lines)):
                found = gap("".join(lines[:count]).encode())
                self.assertEqual(found, (f"no {count + 1} short", 3), (file.name, count))

    def test_lines_at_fault(self) -> None:
        for text, line in (
            ("", "refused 1 53 -"),
            ("ice 1 prices\n", "refused 1 53 -"),
            ("ice 1 session", "refused 1 51 1"),
            ("ice 1 session\nset 2\n", "refused 1 50 2"),
            ("\nset 2\nset", "refused 1 50 1"),
            ("set 1\nset", "refused 1 51 2"),
            ("set " + "0" * 9000, "refused 1 51 1"),
            ("set " + "0" * 9000 + "\n", "refused 1 50 1"),
        ):
            self.assertEqual(answer(text), (line, 2), text[:40])

    def test_deep_logs(self) -> None:
        for more, wanted in (("", ("yes 0", 0)), ("branch 0 0\n", ("no 407 fixed", 3))):
            tree = "node choose 0 199 199 0 0\n" + "node buy 0 1 0 0\n" * 199
            text = f"ice 1 regret\nsettings 50 0 100 1 5 200\ngood A\nbidder b 0\n{tree}"
            branches = "".join(f"branch 0 {node}\n" for node in range(200))
            for head, first in (("final", more), ("rival", "")):
                text += f"{head} 0\nset {'0' * 200}\n{branches}{first}" + "leaf 0\n" * 201
            self.assertEqual(answer(text + "regret 0\nend regret\n"), wanted)


if __name__ == "__main__":
    unittest.main()
