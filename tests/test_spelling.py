"""Spellings of records: each form with each field at its limits, past them, and misspelt.

What is a record and what is none stands in `records.toml`, by the table of docs/formats.md. `check`
says of a line that is none that it is [50], before every test; and behind a head, of lines that are
records in no order, that the second one isn't due.
"""
import tempfile
import unittest
from pathlib import Path

from harness import spelling
from harness.program import INPUT, NO, Program, programs
from harness.spelling import Texts


class Spellings(unittest.TestCase):
    """What is a record, and what is none."""

    def setUp(self) -> None:
        folder = tempfile.TemporaryDirectory()
        self.addCleanup(folder.cleanup)
        self.file = Path(folder.name, "journal")

    def answer(self, program: Program, lines: list[str]) -> tuple[str, int]:
        """What `check` says of these lines."""
        self.file.write_bytes("".join(f"{line}\n" for line in lines).encode("latin-1"))
        ran = program.run(["check", self.file])
        return ran.output.decode(), ran.status

    def try_all(self, texts: Texts) -> None:
        """Tests that these are records and those are none."""
        for program in programs():
            lines = ["ice 1 session", "assign", *texts.records]
            with self.subTest(program=str(program)):
                self.assertEqual(self.answer(program, lines), ("no 2 order\n", NO))
            for text in texts.none:
                with self.subTest(repr(text), program=str(program)):
                    due = "refused 1 50 1\n", INPUT
                    self.assertEqual(self.answer(program, [text]), due)

    def test_fields(self) -> None:
        self.try_all(spelling.of_fields())

    def test_whole_records(self) -> None:
        self.try_all(spelling.of_whole_records())

    def test_lists(self) -> None:
        for head, what in (
            ("bidder s", "owned"),
            ("leaf", "multiplier"),
            ("prices 4294967296", "numerator"),
        ):
            self.try_all(spelling.listed(head, what))

    def test_submissions(self) -> None:
        self.try_all(spelling.of_submissions())

    def test_pairs(self) -> None:
        for pairs in spelling.PAIRS:
            self.try_all(pairs.texts())
        self.try_all(spelling.of_amounts())


if __name__ == "__main__":
    unittest.main()
