"""Tests of docs/check_numbers: it fails where the table of words and the program's types are at odds."""
from __future__ import annotations

import pathlib
import shutil
import subprocess
import sys
import tempfile
import unittest

TOP = pathlib.Path(__file__).resolve().parent.parent.parent
SOURCES = ["ice_trade/src/faults.rt", "ice_read/src/cause.rt", "ice_tree/src/faults.rt", "ice_section/src/faults.rt", "ice_command_parts/src/refusal.rt"]


class Numbers(unittest.TestCase):
    """Each test has some of the sources, with the table that is made of them."""

    def setUp(self) -> None:
        self.top = pathlib.Path(tempfile.mkdtemp(prefix="numbers-"))
        self.addCleanup(shutil.rmtree, self.top)
        for name in [*(f"crates/{source}" for source in SOURCES), "docs/check_numbers", "launch/numbers"]:
            (self.top / name).parent.mkdir(parents=True, exist_ok=True)
            shutil.copy(TOP / name, self.top / name)
        self.checked("--write")
        self.assertEqual(self.checked()[0], 0)

    def checked(self, *options: str) -> tuple[int, str]:
        """The status of the check, and what it prints."""
        ran = subprocess.run([sys.executable, self.top / "docs/check_numbers", *options], capture_output=True, text=True, check=False)
        self.assertEqual(ran.stderr, "")
        return ran.returncode, ran.stdout

    def changed(self, name: str, old: str, new: str) -> None:
        """Puts one text in the place of another one in a file."""
        text = (self.top / name).read_text()
        self.assertIn(old, text)
        (self.top / name).write_text(text.replace(old, new))

    def test_a_text_that_changes(self) -> None:
        self.changed("crates/ice_trade/src/faults.rt", "a bidder of this name is there already", "two bidders have this name")
        status, said = self.checked()
        self.assertEqual(status, 1)
        self.assertIn("launch/numbers: 11: the types say `DuplicateBidder: two bidders have this name`, and the table", said)

    def test_a_number_that_is_new_and_one_that_goes(self) -> None:
        self.changed("crates/ice_read/src/cause.rt", "Some(90)", "Some(89)")
        status, said = self.checked()
        self.assertEqual(status, 1)
        self.assertIn("89: the types have it, and the table doesn't: NoUnits", said)
        self.assertIn("90: no type has it", said)
        status, said = self.checked("--write")
        self.assertEqual((status, "89: `?` isn't a name of its own" in said), (1, True))

    def test_words_that_are_wanted(self) -> None:
        self.changed("launch/numbers", "\tits bids may sell more of a good than it owns", "\t")
        self.assertIn("14: it wants words", self.checked()[1])
        self.changed("launch/numbers", "\tsale\t", "\tname\t")
        self.assertIn("14: `name` isn't a name of its own", self.checked()[1])

    def test_a_line_that_is_none(self) -> None:
        with open(self.top / "launch/numbers", "a", encoding="ascii") as table:
            table.write("95 \n")
        ran = subprocess.run([sys.executable, self.top / "docs/check_numbers"], capture_output=True, text=True, check=False)
        self.assertEqual((ran.returncode, ran.stdout), (1, ""))


if __name__ == "__main__":
    unittest.main()
