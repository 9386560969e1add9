"""Tests of the launcher's line of words, with a stand-in for the program."""
from __future__ import annotations

import json
import os
import pathlib
import shutil
import subprocess
import tempfile
import unittest
from typing import Any
import unittest.mock

TESTS = pathlib.Path(__file__).resolve().parent
TOP = TESTS.parent.parent
EXCHANGE = """{"settings": {"weight": 50, "close_regret": 0, "cap": 9, "improve": 0, "round": 5, "branches": 9},
 "goods": ["day"], "bidders": [{"name": "B\u00e4cker", "own": {"dy": 1},
  "tree": {"buy": "day", "units": 1.5, "lo": 3, "hi": 2}}]}
"""
OPEN = "ice 2 session\nsettle 0\nregret 90\nsettle 1\nfinal 8\nregret 3915\nprices 2 1\nend open\n"
CLOSED = "ice 2 session\nsettle 1\nfinal 8\nregret 0\nthreshold 5/2 1/3\npayment a 1 1/1 2/1\nend closed\n"


class Words(unittest.TestCase):
    """Each test has a checkout with a program that counts as built."""

    def setUp(self) -> None:
        self.top = pathlib.Path(tempfile.mkdtemp(prefix="launch-"))
        self.addCleanup(shutil.rmtree, self.top)
        shutil.copy(TOP / "ice", self.top)
        for folder in ("launch", "sheet/ice_sheet"):
            shutil.copytree(TOP / folder, self.top / folder)
        for part in ("src", "specs", "proofs", "out"):
            (self.top / "crates/ice_cli" / part).mkdir(parents=True)
        (self.top / "crates.txt").write_text("ice_cli:\n")
        shutil.copyfile(TESTS / "program", self.top / "crates/ice_cli/out/ice_cli")
        (self.top / "crates/ice_cli/out/ice_cli").chmod(0o755)
        (self.top / "market.json").write_text(EXCHANGE)
        self.out = self.top / "out"

    def settings(self, answer: str, status: int) -> dict[str, str]:
        """The environment in which the program answers so."""
        (self.top / "answer").write_text(answer)
        return {**os.environ, "ANSWER": str(self.top / "answer"), "STATUS": str(status), "LC_ALL": "C.UTF-8"}

    def told(self, answer: str, status: int, *words: str, mode: str = "w") -> str:
        """The line of words where standard output is a file, which has the answer and nothing else."""
        before = self.out.read_text() if mode == "a" else ""
        with open(self.out, mode, encoding="utf-8") as out:
            how: dict[str, Any] = {"stderr": subprocess.PIPE, "stdin": subprocess.DEVNULL, "text": True, "cwd": self.top}
            ran = subprocess.run(["./ice", *words], stdout=out, env=self.settings(answer, status), check=False, **how)
        self.assertEqual((ran.returncode, self.out.read_text()), (status, before + answer))
        lines = [line for line in ran.stderr.splitlines() if line.startswith("ice: ")]
        self.assertLessEqual(len(lines), 1)
        if status != 1:
            self.assertEqual(ran.stderr.splitlines(), lines)
        return str(lines[0][5:]) if lines else ""

    def refused(self, number: int, place: str, *words: str, file: int = 1) -> str:
        """The line of words for a refusal."""
        return self.told(f"refused {file} {number} {place}\n", 2, *(words or ("run", "market.json")))

    def test_sessions(self) -> None:
        self.assertEqual(self.told(OPEN, 9, "run", "m", "r1"), "open after round 1, regret 3915: wants round 2")
        self.assertEqual(self.told(CLOSED, 0, "run", "m", "r1"), "closed after round 1: regret 0, surplus 1/3")
        self.assertEqual(self.told(CLOSED, 0, "run", "m", "r1", "r 2", "r3"), "closed after round 1: regret 0, surplus 1/3; not read: r\\ 2 r3")
        spent = "settle 0\nspent 50 65\nset 1\nend spent\n"
        self.assertEqual(self.told(spent, 4, "run", "m"), "the branches of the settings are used up: what was found is worth 50, and nothing is worth more than 65, a gap of 30.0 %; `ice gap` tests it")
        self.assertIn("more than 3259, a gap of 0.1 %", self.told(spent.replace("50 65", "3258 3259"), 4, "run", "m"))
        self.assertTrue(self.told(spent.replace("50 65", "0 65"), 4, "run", "m").endswith("nothing is worth more than 65; `ice gap` tests it"))
        self.assertEqual(self.told("limit accuracy rows 0 1\nend limit\n", 5, "run", "m"), "the pricing came to a limit: no prices are offered")
        self.assertEqual(self.told("limit fairness den 0 1\nend limit\n", 5, "fair", "m"), "the search for fair prices came to a limit: none are told")

    def test_which_search_was_spent(self) -> None:
        begun = "ice 2 session\nsettings 50 40 100 1 2 200\n"
        best = "settle 0\nfinal 700\nset 1\nnear 0\n"
        spent = "spent 50 65\nset 1\nnear 0\nend spent\n"
        found = "is worth 50, and nothing is worth more than 65"
        told = self.told(f"{begun}{best}{spent}", 4, "run", "m")
        self.assertIn(f"the final trade is worth 700, and none is worth more; its regret isn't known: the rival that was found {found};", told)
        told = self.told(f"{begun}{best}rival 741\nregret 41\n{spent}", 4, "run", "m")
        self.assertIn(f"its regret 41 stand; the provisional trade that was found {found}, in hundredths;", told)
        told = self.told(f"{begun}{best}rival 740\nregret 40\n{spent}", 4, "run", "m")
        self.assertIn(f"its regret 40 stand, and payments aren't known: what was found without bidder 0 {found};", told)
        last = best.replace("settle 0", "settle 2")
        told = self.told(f"{begun}{last}rival 790\nregret 90\nwithout 0 4\nwithout 1 5\n{spent}", 4, "run", "m")
        self.assertIn(f"its regret 90 stand, and payments aren't known: what was found without bidder 2 {found};", told)
        told = self.told(f"{begun}{last}rival 790\nregret 90\n{spent}", 4, "run", "m")
        self.assertIn("without bidder 0", told)
        told = self.told(f"{begun}{best}rival 790\nregret 90\nprovisional 7\nsettle 1\n{spent}", 4, "run", "m")
        self.assertIn(f"used up: what was found {found}, a gap of 30.0 %;", told)
        told = self.told(f"ice 2 regret\nsettings 50 40 100 1 2 200\nfinal 700\n{spent}", 4, "regret", "m")
        self.assertIn(f"the rival that was found {found};", told)
        told = self.told(f"ice 2 regret\nsettings 50 40 100 1 2 200\n{spent}", 4, "regret", "m")
        self.assertIn(f"used up: what was found {found}, a gap of 30.0 %;", told)

    def test_a_gap_that_is_tested(self) -> None:
        (self.top / "spent.journal").write_text("settle 0\nspent 50 65\nset 1\nend spent\n")
        begins = "spent.journal is right as far as it goes, to line 2: it closes nothing, and ends with `end spent`; the gap is"
        for said, end in (
            ("gap final 50 65", " checked: `gap final 50 65`"),
            ("no 9 above", " not what the journal states: `ice gap` says `no 9 above`"),
            ("refused 1 50 9", "n't checked: `ice gap` tests it"),
        ):
            with unittest.mock.patch.dict(os.environ, {"GAP": said}):
                self.assertEqual(self.told("no 2 closed\n", 3, "check", "spent.journal"), f"{begins}{end}")
                self.assertEqual(self.told("no 2 closed\n", 3, "statement", "spent.journal", "a"), f"{begins}n't checked: `ice gap` tests it")
        (self.top / "open.journal").write_text("settle 0\nregret 9\nend open\n")
        with unittest.mock.patch.dict(os.environ, {"GAP": "gap final 50 65"}):
            self.assertTrue(self.told("no 3 closed\n", 3, "check", "open.journal").endswith("and ends with `end open`"))
            self.assertEqual(self.told("no 2 closed\n", 3, "check", "absent"), "absent is right as far as it goes, to line 2: it closes nothing")

    def test_gaps(self) -> None:
        self.assertEqual(self.told("gap final 50 65\n", 0, "gap", "m"), "")
        self.assertIn("m, line 9: no gap is stated", self.told("no 9 spent\n", 3, "gap", "m"))
        self.assertIn("takes one file, and 2 words", self.told("words refused\n", 1, "gap", "m", "n"))

    def test_simulations(self) -> None:
        self.assertEqual(self.told(CLOSED, 0, "simulate", "m", "t"), "closed after round 1: regret 0, surplus 1/3")
        spent = "settle 0\nspent 50 65\nset 1\nend spent\n"
        self.assertIn("the branches of the settings are used up", self.told(spent, 4, "simulate", "m", "t"))
        (self.top / "truths.json").write_text('{"bids": [{"bidder": "a", "lo": [1], "hi": [1]}, {"bidder": "b", "lo": [2], "hi": [3]}]}')
        told = self.refused(92, "bids.1", "simulate", "market.json", "truths.json", file=2)
        self.assertRegex(told, r'^truths.json is refused: bids.1 "b": no true values of .* \(number 92\)$')
        told = self.refused(93, "-", "simulate", "market.json", "truths.json", file=2)
        self.assertRegex(told, r"^truths.json is refused: a bidder of the exchange has no bid.* \(number 93\)$")

    def test_what_says_all_itself_has_no_line(self) -> None:
        self.assertEqual(self.told("yes 0 0/1\n", 0, "check", "j"), "")
        self.assertEqual(self.told("best a 1\nset 1\nend best\n", 0, "best", "e", "p"), "")

    def test_faults_have_their_element(self) -> None:
        self.assertEqual(self.refused(13, "bidders.0"), 'market.json is refused: bidders.0 "B\u00e4cker": not a lawful name: 1 to 32 of A-Z a-z 0-9 _ - . (number 13)')
        self.assertEqual(self.refused(2, "settings"), "market.json is refused: settings has `round`, lacks `rounds`: not of the form that belongs here (number 2)")
        self.assertIn(': bidders.0.tree.units 1.5: no whole number', self.refused(3, "bidders.0.tree.units"))
        self.assertIn(': bidders.0.own "dy": a good is named that isn\'t there', self.refused(5, "bidders.0.own"))
        self.assertIn(": bidders.0 \"B\u00e4cker\": its bids may sell more", self.refused(14, "bidders.0", "xor", "market.json"))
        self.assertEqual(self.refused(16, "-"), "market.json is refused: an exchange has at least one good and one bidder (number 16)")

    def test_flat_bids_want_xor_first(self) -> None:
        packages = TOP / "examples/packages.json"
        shutil.copy(packages, self.top / "flat.json")
        told = 'flat.json is refused: bidders.0 "regulator" has flat bids: `ice xor` makes an exchange of them first (number 2)'
        for words in (("run", "flat.json"), ("run", "flat.json", "r1"), ("regret", "flat.json"), ("best", "flat.json", "p")):
            self.assertEqual(self.refused(2, "bidders.0", *words), told)
        market = json.loads(packages.read_text())
        (self.top / "flat.json").write_text(json.dumps({**market, "bidders": [{"own": {}, "or": []}]}))
        self.assertEqual(self.refused(2, "bidders.0", "run", "flat.json"), told.replace(' "regulator"', ""))
        other = "not of the form that belongs here (number 2)"
        for bidder, command, place in [
            ({"name": "a", "own": {}, "xor": [], "note": 1}, "xor", "bidders.0"),  # `xor` takes flat bids
            ({"name": "a", "own": {}, "tree": 7}, "run", "bidders.1"),  # trees among them: `xor` takes none
            ({"name": "a", "own": {}, "or": [{"lo": 1, "hi": 2}]}, "xor", "bidders.0.or.0"),
        ]:
            (self.top / "flat.json").write_text(json.dumps({**market, "bidders": [bidder, *market["bidders"]]}))
            told = self.refused(2, place, command, "flat.json")
            self.assertTrue(told.endswith(other), told)

    def test_what_a_file_says_reaches_no_terminal_as_it_is(self) -> None:
        (self.top / "r").write_text('{"bids":[{"bidder":"a","lo":[],"hi":[],"\\u001b]0;x\\u0007\\u001b[2J yes 0 0/1":1}]}')
        told = self.refused(2, "bids.0", "run", "market.json", "r", file=2)
        self.assertEqual(told, r"r (round 1) is refused: bids.0 has `\x1b]0;x\x07\x1b[2J yes 0 0/1`: not of the form that belongs here (number 2)")
        (self.top / "r").write_text('{"bids":[{"bidder":"a\u009b2J\u202eb","lo":[],"hi":[]}]}')
        told = self.refused(13, "bids.0.bidder", "run", "market.json", "r", file=2)
        self.assertIn(r'bids.0.bidder "a\x9b2J\u202eb": not a lawful name', told)
        (self.top / "a\x1b[2J\u202e.json").write_text("{}")
        for line in (self.refused(2, "-", "run", "market.json", "a\x1b[2J\u202e.json", file=2), self.told("unread 1\n", 6, "check", "a\u2066")):
            self.assertTrue(line.isprintable(), ascii(line))

    def test_a_fault_of_a_round_names_its_file(self) -> None:
        (self.top / "bom.json").write_bytes(b"\xef\xbb\xbf{}")
        (self.top / "cut.json").write_text('{"bids": [\n')
        told = self.refused(1, "-", "run", "market.json", "bom.json", file=2)
        self.assertEqual(told, "bom.json (round 1) is refused: no JSON (a byte order mark stands in front: leave it out) (number 1)")
        told = self.refused(1, "-", "run", "market.json", "bom.json", "cut.json", file=3)
        self.assertEqual(told, "cut.json (round 2) is refused: no JSON (Expecting value at line 2, column 1) (number 1)")

    def test_lines_at_fault(self) -> None:
        (self.top / "j").write_text("ice 1 assign\nsettings 1\ngood a\x07 \n")
        self.assertEqual(self.refused(50, "3", "check", "j"), r"j is refused: line 3 `good a\x07 `: no record, or one that may not stand here, or one is missing (number 50)")
        self.assertEqual(self.refused(51, "9", "check", "/dev/stdin"), "standard input is refused: line 9: the last line has no newline: the file may have been cut off (number 51)")
        (self.top / "j").write_text("good a\n")
        self.assertEqual(self.refused(53, "-", "migrate", "j"), "j is refused: not a journal of a kind that `migrate` takes (number 53)")

    def test_each_number_has_words(self) -> None:
        numbers = [line.split("\t")[0] for line in (TOP / "launch/numbers").read_text().splitlines()]
        self.assertEqual(len(numbers), 29)
        for number in map(int, numbers):
            told = self.refused(number, "-")
            self.assertRegex(told, rf"^market.json is refused: [^:]{{6,}}.*\(number {number}\)$")
            self.assertNotIn("refused: refused", told)

    def test_each_test_of_a_journal_has_words(self) -> None:
        rules = "order short exchange count parent few many excess value near sign fixed above alive regret fixing prices violation accuracy balance verdict threshold payment"
        for name in rules.split():
            told = self.told(f"no 7 {name}\n", 3, "check", "j")
            self.assertRegex(told, "^j, line 7: [a-z ]{12,}")
            self.assertNotIn("failed", told)
        self.assertEqual(self.told("no 7 short\n", 3, "audit", "s"), "s, line 7: the statement ends too early")

    def test_a_journal_that_is_right_as_far_as_it_goes(self) -> None:
        (self.top / "j").write_text(OPEN)
        self.assertEqual(self.told("no 8 closed\n", 3, "check", "j"), "j is right as far as it goes, to line 8: it closes nothing, and ends with `end open`")

    def test_the_command_for_another_file_is_named(self) -> None:
        self.files({
            "s": "statement a\nsettings 50 0 9 0 5 9\n",
            "j": OPEN,
            "j1": OPEN.replace("ice 2", "ice 1"),
            "r": "ice 2 regret\nsettings 50 0 9 0 5 9\n",
            "a": "ice 1 assign\nsettings 50 0 9 0 5 9\n",
            "e": "ice 1 exchange\nsettings 50 0 9 0 5 9\n",
            "p": "ice 1 prices\nprices 2 3\n",
            "f": "prices 2 3\naccuracy 0 1\n",
            "bids": ' {\n"bids" : []}',
            "flat": '{"goods": ["day"], "bidders": [{"name": "a", "own": {}, "xor": []}]}',
            "bid": '{"bidder": "a", "lo": [], "hi": []}',
        })
        journal = "it is a journal of kind {}: `ice check` tests it"
        statement, flat = "it is a statement: `ice audit` tests it", "it has flat bids: `ice xor` makes an exchange of them first"
        exchange = "it is an exchange: `ice run`, `simulate`, `regret` and `best` read it first"
        bids, prices = "it has bids of a round: `ice run` reads it behind an exchange", "it has prices: `ice best` reads it behind an exchange"
        for file, number, place, words, told in [
            (1, 50, "1", ("check", "s"), statement),
            (1, 50, "1", ("replay", "s", "0"), statement),
            (1, 50, "1", ("gap", "e"), exchange),
            (1, 50, "1", ("fair", "market.json"), exchange),
            (1, 50, "1", ("check", "f"), "it has fair prices: `page/ice-page JOURNAL --fair FILE` shows them"),
            (1, 53, "-", ("check", "p"), prices),
            (1, 53, "-", ("replay", "a", "0"), journal.format("assign")),
            (1, 53, "-", ("statement", "r", "a"), journal.format("regret")),
            (1, 53, "-", ("fair", "r"), journal.format("regret")),
            (1, 53, "-", ("migrate", "j"), "it is in version 2 already"),
            (1, 53, "-", ("migrate", "a"), "it is a journal of kind assign, which has version 1 alone"),
            (1, 50, "1", ("run", "j"), journal.format("session")),
            (1, 50, "1", ("simulate", "j1", "bids"), journal.format("session")),
            (1, 1, "-", ("run", "s"), statement),
            (1, 50, "1", ("best", "r", "p"), journal.format("regret")),
            (1, 2, "bidders.0", ("best", "flat", "p"), "`ice xor` makes an exchange of them first"),
            (1, 2, "bidders.0", ("regret", "flat"), "`ice xor` makes an exchange of them first"),
            (1, 2, "bidders.0", ("xor", "market.json"), exchange),
            (1, 2, "-", ("regret", "bids"), bids),
            (2, 2, "-", ("run", "market.json", "market.json"), exchange),
            (2, 2, "-", ("run", "market.json", "bid"), "it is a single bid: `examples/collect.py` makes a round file of such"),
            (2, 2, "-", ("run", "market.json", "flat"), flat),
            (2, 50, "1", ("best", "market.json", "bids"), bids),
        ]:
            said = self.refused(number, place, *words, file=file)
            self.assertIn(f": {told}", said, words)
            self.assertTrue(said.endswith(f" (number {number})"), said)
        for words, told in {("audit", "j"): journal.format("session"), ("audit", "p"): prices}.items():
            self.assertIn(f", line 1: {told}", self.told("no 1 order\n", 3, *words))
        # the kind that the command takes has its own fault
        for words in (("check", "j"), ("migrate", "j1"), ("audit", "s")):
            self.assertNotIn("it is", self.refused(50, "1", *words))
        self.assertNotIn("it is", self.refused(2, "-", "run", "market.json"))
        self.assertEqual(self.told("no 2 order\n", 3, "audit", "s"), "s, line 2: another record belongs here")
        (self.top / "o").write_text("statement a\nend open\n")
        self.assertEqual(self.told("no 2 order\n", 3, "audit", "o"), "o is right as far as it goes, to line 2: it is a statement of a session that is open")

    def files(self, texts: dict[str, str]) -> None:
        """Files in the checkout."""
        for name, text in texts.items():
            (self.top / name).write_text(text)

    def test_help_behind_a_command(self) -> None:
        for words in (("check", "--help"), ("run", "-h"), ("--help",)):
            for launcher in ("./ice", TOP / "ice-unproved"):
                ran = subprocess.run([str(launcher), *words], cwd=self.top, env=self.settings("", 6), capture_output=True, text=True, check=False)
                begins = "usage: ice " if words[0] == "--help" else f"usage: ice {words[0]} "
                self.assertEqual((ran.returncode, ran.stdout[: len(begins)], ran.stderr), (0, begins, ""))

    def test_files_that_are_not_read(self) -> None:
        self.assertEqual(self.told("unread 1\n", 6, "check", "absent"), "absent could not be read: there is no such file")
        self.assertEqual(self.told("settle 0\nunread 2\n", 6, "run", "m", "launch"), "launch (round 1) could not be read: it is a folder")

    def test_wrong_words(self) -> None:
        for words, told in {
            (): "there is no command",
            ("chek", "j"): "there is no command chek",
            ("help",): "there is no command help: it is `--help`",
            ("check", "a", "b"): "`check` takes one file, and 2 words stand behind it",
            ("best", "a"): "`best` takes an exchange and prices, and 1 words stand behind it",
            ("gen", "07"): "`gen` takes a number from 0 to 4294967295, with no sign and no leading zero, and not 07",
            ("replay", "j", "21"): "`replay` takes a settlement from 0 to 20, with no sign and no leading zero, and not 21",
            ("audit",): "`audit` takes one file, and 0 words stand behind it",
            ("fair", "m", "0"): "`fair` takes one file, and 2 words stand behind it",
            ("simulate", "m"): "`simulate` takes an exchange and true values, and 1 words stand behind it",
            ("statement", "j"): "`statement` takes a journal and the name of a bidder, and 1 words stand behind it",
            ("run",): "`run` takes an exchange, and no file is named",
            ("run", *"m12345678901234567890!"): "`run` takes up to 20 round files, and 21 are named",
            ("check", b"\xff"): "the word $'\\377' is no text in UTF-8",
        }.items():
            self.assertEqual(self.told("words refused\n", 1, *words), told)

    def test_what_stood_in_the_file_is_left(self) -> None:
        self.out.write_text("refused 9 9 before\n")
        self.assertEqual(self.told(OPEN, 9, "run", "m", mode="a"), "open after round 0, regret 3915: wants round 1")
        self.assertEqual(self.told("end open\n", 9, "run", "m", mode="a"), "open after round 0: wants round 1")

    def test_a_pipe_gets_the_same_bytes_and_its_words(self) -> None:
        answer = OPEN * 5000
        ran = subprocess.run([self.top / "ice", "run", "m", "r1"], env=self.settings(answer, 9), capture_output=True, text=True, check=False)
        self.assertEqual((ran.returncode, ran.stdout, ran.stderr), (9, answer, "ice: open after round 1: wants round 2\n"))
        ran = subprocess.run([self.top / "ice", "check", "m"], env=self.settings("refused 1 50 3\n", 2), capture_output=True, text=True, check=False)
        self.assertEqual(ran.stderr, "ice: a file is refused: the last line of the output says which, its fault, and where\n")

    def test_standard_output_that_fails_ends_with_7(self) -> None:
        for target in (">/dev/full", ">&-", "| true"):
            script = f'set -o pipefail; {{ sleep 0.3; ./ice run m; echo "status $?" >&2; }} {target}'
            ran = subprocess.run(["bash", "-c", script], cwd=self.top, env=self.settings(OPEN * 5000, 9), stderr=subprocess.PIPE, text=True, check=False)
            self.assertEqual(ran.stderr.splitlines()[-2:], ["ice: standard output failed: what was written is a front of the answer, or nothing", "status 7"], target)


if __name__ == "__main__":
    unittest.main()
