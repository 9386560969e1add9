"""The fuzzer: some turns of it, and whether it notices what it must."""
import subprocess
import sys
import unittest
from typing import Any

from harness.cases import changed, shared
from harness.forms import misshapen
from harness.judge import faults, gap_faults
from harness.program import DONE, INPUT, NO, TESTS, Ran

TURNS = 500


class Fuzz(unittest.TestCase):
    """What the fuzzer stands on."""

    def test_some_turns(self) -> None:
        words = [sys.executable, str(TESTS / "fuzz"), "--turns", str(TURNS), "--seed", "gate"]
        ran = subprocess.run(words, capture_output=True, text=True)
        self.assertEqual(ran.returncode, 0, ran.stdout + ran.stderr)

    def test_journals_that_are_right(self) -> None:
        for name, answer in (
            ("sale.assign", "yes 10"),
            ("sale.regret", "yes 0"),
            ("rivals.regret", "yes 20"),
            ("sale.session", "yes 0 0/1"),
            ("core.session", "yes 0 10/1"),
            ("regretted.session", "yes 4 0/1"),
            ("rounds.session", "yes 0 0/1"),
            ("unmatched.session", "yes 0 0/1"),
        ):
            with self.subTest(name):
                self.assertEqual(list(faults(shared(name).encode(), answer)), [])

    def test_journals_that_are_wrong(self) -> None:
        wrong: tuple[tuple[Any, ...], ...] = (
            ("sale.assign", "yes 11"),
            ("sale.assign", "yes 20", 9, "set 0"),
            ("sale.regret", "yes 0", 13, "set 0"),
            ("sale.regret", "yes 1", 16, "regret 1"),
            ("sale.regret", "yes 0", 9, "set 0", 10, "set 0", 8, "final 0"),
            ("rivals.regret", "yes 0", 16, "set 1", 17, "set 1", 18, "set 0"),
            ("choice.assign", "yes 52", 14, "set 111"),
            ("sale.session", "yes 0 0/1", 26, "threshold 6/1 0/1"),
            ("sale.session", "yes 0 0/1", 27, "payment s 10 5/1 -14/1"),
            ("core.session", "yes 0 0/1", 63, "threshold 0/1 0/1"),
            ("rounds.session", "yes 0 0/1", 22, "prices 1 101"),
            ("rounds.session", "yes 0 0/1", 39, "verdict 43"),
        )
        for name, answer, *change in wrong:
            with self.subTest(name, change=change):
                journal = changed(shared(name), list(zip(change[::2], change[1::2])))
                self.assertNotEqual(list(faults(journal.encode(), answer)), [])

    def test_gaps_that_are_right(self) -> None:
        for name, answer in (
            ("spent-final.session", "gap final 0 10"),
            ("spent-rival.session", "gap rival 0 10"),
            ("spent-provisional.session", "gap provisional 0 100"),
            ("spent-without.session", "gap without 1 0 5"),
            ("spent-round.session", "gap final 1 2"),
            ("spent-exact.regret", "gap final 10 20"),
        ):
            with self.subTest(name):
                self.assertEqual(list(gap_faults(shared(name).encode(), answer)), [])

    def test_gaps_that_are_wrong(self) -> None:
        wrong: tuple[tuple[Any, ...], ...] = (
            ("spent-final.session", "gap final 0 11"),
            ("spent-final.session", "gap rival 0 10"),
            ("spent-final.session", "gap final 0 9", 9, "spent 0 9"),
            ("spent-final.session", "gap final 0 10", 10, "set 1"),
            ("spent-final.session", "gap final -10 0", 9, "spent -10 0", 10, "set 1", 11, "set 1"),
            ("spent-final.session", "gap final 10 10", 9, "spent 10 10", 10, "set 1", 11, "set 1"),
            ("spent-without.session", "gap without 0 0 5"),
            ("spent-without.session", "gap without 1 10 11", 22, "spent 10 11", 23, "set 1", 24, "set 1"),
            ("open.session", "gap provisional 0 100"),
        )
        for name, answer, *change in wrong:
            with self.subTest(name, change=change):
                journal = changed(shared(name), list(zip(change[::2], change[1::2])))
                self.assertNotEqual(list(gap_faults(journal.encode(), answer)), [])

    def test_answers_of_another_form(self) -> None:
        for command, status, output in (
            ("check", DONE, b"yes\n"),
            ("check", DONE, b"yes 0"),
            ("check", DONE, b"yes 0\nyes 0\n"),
            ("check", NO, b"no 7 nothing\n"),
            ("check", NO, b"refused 1 53 -\n"),
            ("check", INPUT, b"refused 1 50 \xff\n"),
            ("check", -11, b""),
            ("check", 8, b""),
            ("check", 9, b"end open\n"),
            ("run", DONE, b"end closed\n"),
            ("run", DONE, b"ice 2 session\nend open\n"),
            ("xor", DONE, b"{}\n"),
            ("best", DONE, b"best b 1\nend best\n"),
            ("check", NO, b"no 7 spent\n"),
            ("gap", NO, b"no 7 closed\n"),
            ("gap", DONE, b"gap assign 0 10\n"),
            ("gap", DONE, b"gap without 0 10\n"),
            ("gap", DONE, b"yes 0\n"),
        ):
            with self.subTest(command, output=output):
                self.assertIsNotNone(misshapen(command, Ran(status, output, b"")))
        self.assertIsNotNone(misshapen("check", Ran(DONE, b"yes 0\n", b"a warning")))
        self.assertIsNone(misshapen("check", Ran(DONE, b"yes 0\n", b"")))
        self.assertIsNone(misshapen("check", Ran(NO, b"no 7 exchange\n", b"")))
        self.assertIsNone(misshapen("gap", Ran(DONE, b"gap without 3 -5 10\n", b"")))
        self.assertIsNone(misshapen("gap", Ran(NO, b"no 7 spent\n", b"")))


if __name__ == "__main__":
    unittest.main()
