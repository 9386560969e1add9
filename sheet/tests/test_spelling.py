"""What somebody else's file says reaches a terminal in characters that print."""
import json
import os
import subprocess
import sys
import tempfile
import unittest
from pathlib import Path
from typing import Any

from support import ROOT, SETTINGS, collect, run, sheet
from test_market import EXCHANGE

from ice_sheet import collecting
from ice_sheet.faults import BadTable, Fault, shown
from ice_sheet.spelling import spelled

# A title, the screen cleared and a forged answer; a C1 control; the order of characters turned round.
NAMES = ["\x1b]0;x\x07\x1b[2J yes 0 0/1", "\x9b2J yes", "a\u202eb\u2066c", "\u200fx\x7f", "\u2028y"]
HEADS = "bidder,bid,lo,hi,berth\n"


class Spelling(unittest.TestCase):
    """No character that a terminal obeys is written."""

    def assert_prints(self, lines: list[str]) -> None:
        """Every line is made of characters that print."""
        self.assertTrue(lines)
        for line in lines:
            self.assertTrue(line.isprintable(), ascii(line))

    def test_how_characters_are_spelled(self) -> None:
        self.assertEqual(spelled("\x1b[2J\u202e\u009b\x7f"), r"\x1b[2J\u202e\x9b\x7f")
        self.assertEqual(spelled("Bäcker, 東京 −5"), "Bäcker, 東京 −5")
        self.assertEqual(spelled("\ud800\U000e0001\n"), r"\ud800\U000e0001\n")

    def test_collected_bids(self) -> None:
        bid: dict[str, Any] = {"bidder": "b", "lo": [], "hi": []}
        for name in NAMES:
            for value in ({**bid, name: 1}, {**bid, "bidder": name}, {"bids": [{**bid, name: 1}]}):
                status, _, errors = collect({"m.json": EXCHANGE, "b.json": value}, "m.json", "b.json")
                self.assertEqual(status, 3)
                self.assert_prints(errors)
            text = '{"bidder": "b", %s: 1, %s: 2}' % (json.dumps(name), json.dumps(name))
            self.assert_prints(collect({"m.json": EXCHANGE, "b.json": text}, "m.json", "b.json")[2])

    def test_names_of_files(self) -> None:
        name = "1405-\x1b[2J\u202e.json"
        for words, wanted in (
            ((name,), 3),
            ((name, "--named"), 3),
            (("absent\x1b[2J",), 6),
            ((name, "--absent\x1b[2J"), 1),
        ):
            files = {"m.json": EXCHANGE, name: 7}
            status, _, errors = run(collecting.main, files, "m.json", *words)
            self.assertEqual((status, r"\x1b[2J" in errors), (wanted, True), words)
            self.assert_prints(errors.splitlines())
        self.assert_prints(sheet("", "a\x1b[2J", "b\x9b2J")[2])

    def test_reasons_that_are_kept(self) -> None:
        """What `jq -r` prints of the bids that were put aside, and each fault of a table."""
        for name in NAMES:
            self.assertTrue(shown(name).isprintable(), ascii(name))
            self.assert_prints(BadTable([Fault(2, name, name)]).told())
            with tempfile.NamedTemporaryFile() as file:
                value = {"bidder": name, "lo": [], "hi": []}
                words = ("m.json", "b.json", "--aside", file.name)
                status, _, _ = collect({"m.json": EXCHANGE, "b.json": value}, *words)
                aside = json.load(file)["aside"]
            self.assertEqual((status, len(aside)), (3, 1))
            self.assert_prints([aside[0]["reason"]])

    def test_tables(self) -> None:
        for name in NAMES:
            cell = '"' + name + '"'
            for table in (
                f"bidder,bid,lo,hi,{cell}\np,or,-1,-1,-1\n",
                f"{HEADS}{cell},or,-1,-1,-1\n",
                f"{HEADS}p,{cell},-1,-1,-1\n",
                f"{HEADS}p,or,{cell},-1,-1\n",
                f"{HEADS}p,or,-1,-1,{cell}\n",
                f"{HEADS}p,or,-1,-1,-1,{cell}\n",
                f"bidder,bid,lo,hi,berth,{cell}\np,or,x,-1,-1,{cell}\n",
                f"{cell},bid,lo,hi,berth\n",
            ):
                status, _, errors = sheet(table, "--settings", "s.json", s=SETTINGS)
                self.assertEqual(status, 2, table)
                self.assert_prints(errors)

    def test_settings_and_markets(self) -> None:
        for name in NAMES:
            table = f"{HEADS}p,own,,,1\np,or,-1,-1,-1\n"
            status, _, errors = sheet(table, json.dumps({**SETTINGS, name: 1}))
            self.assertEqual(status, 2)
            self.assertIn("doesn't belong here", errors[0])
            self.assert_prints(errors)
            for market in (
                {**EXCHANGE, name: 1},
                {**EXCHANGE, "bidders": [{"name": "p", "own": {name: -1}, "or": []}]},
            ):
                status, _, errors = sheet(table, "--market", "m.json", m=market)
                self.assertEqual((status, errors[0][:6]), (2, "m.json"))
                self.assert_prints(errors)

    def test_the_program_s_own_line_of_words(self) -> None:
        """The place of a fault, as the launcher `ice` shows it."""
        for name in NAMES:
            for value, words in (
                ({"bids": [{"bidder": "a", "lo": [], "hi": [], name: 1}]}, ("2", "bids.0", "run")),
                ({"bids": [{"bidder": name, "lo": [], "hi": []}]}, ("2", "bids.0.bidder", "run")),
                ({"goods": [], "bidders": [{"name": name, "or": []}]}, ("14", "bidders.0", "xor")),
                ({"goods": [], "bidders": [{"own": {name: 1}}]}, ("5", "bidders.0.own", "run")),
            ):
                told = self.value_at(value, *words)
                self.assertTrue(told and told.isprintable(), ascii(told))

    def test_the_program_s_own_line_of_words_stays_short(self) -> None:
        names = {f"{n} {'x' * 1000}": 1 for n in range(1000)}
        told = self.value_at({"bids": [names]}, "2", "bids.0", "run")
        self.assertLess(len(told), 500)

    def value_at(self, value: Any, number: str, place: str, command: str) -> str:
        """What the launcher's part prints of a place."""
        with tempfile.TemporaryDirectory() as folder:
            file = Path(folder) / "f.json"
            file.write_text(json.dumps(value))
            program = [sys.executable, "-I", str(ROOT / "launch/value_at")]
            environment = {**os.environ, "PYTHONIOENCODING": "utf-8", "LC_ALL": "C.UTF-8"}
            ran = subprocess.run(
                [*program, str(file), number, place, command],
                capture_output=True,
                check=True,
                env=environment,
            )
        return ran.stdout.decode()


if __name__ == "__main__":
    unittest.main()
