"""The same line and status as the program's: on samples, on rows of tests, and on mutants.

Journals of version 3 are left out: the program doesn't read them yet.
"""
import unittest

import mutants
from support import (
    JOURNALS,
    JUDGES,
    ROOT,
    answer_of_program,
    is_read_by_program,
    needs_program,
    rows,
)


@needs_program
class Program(unittest.TestCase):
    """Each answer is the program's."""

    def agree(self, name: str, journal: bytes) -> None:
        """Whether both answer the same."""
        if not is_read_by_program(journal):
            return
        for command, judge in JUDGES.items():
            with self.subTest(name, command=command):
                self.assertEqual(judge(journal), answer_of_program(journal, command))

    def test_samples(self) -> None:
        self.assertTrue(JOURNALS)
        for file in JOURNALS:
            self.agree(file.name, file.read_bytes())

    def test_a_long_journal(self) -> None:
        file = ROOT / "crates" / "ice_cli" / "data" / "long.journal"
        if not file.exists():
            self.skipTest("the crates aren't here")
        journal = file.read_bytes()
        self.agree("as it is", journal)
        self.agree("without its last byte but one", journal[:-2] + b"\n")

    def test_rows_of_other_tests(self) -> None:
        for journal in rows():
            self.agree(str(journal), journal)

    def test_mutants(self) -> None:
        self.assertEqual(mutants.differences(mutants.COUNT), [])


if __name__ == "__main__":
    unittest.main()
