"""Rounds that are played by the rule, on the hall, with a program that is told what to say."""
import contextlib
import io
import json
import os
import sys
import tempfile
import unittest
from fractions import Fraction
from pathlib import Path
from typing import Any

HERE = Path(__file__).resolve().parent
ROOT = HERE.parents[1]
sys.dont_write_bytecode = True
sys.path.insert(0, str(HERE.parent))

import playing  # noqa: E402

HALL = json.loads((ROOT / "examples/hall.json").read_text())
LINES = (ROOT / "examples/hall-session.journal").read_text().splitlines()
SUBMIT = next(place for place, line in enumerate(LINES) if line.startswith("submit"))
SETTLE = LINES.index("settle 1")
TRUTHS = {
    "hall": [0, -10, -10, -10],
    "choir": [0, 60, 0, 0, 20],
    "opera": [57, 0, 0],
    "dance": [52, 0, 0],
}
ROUND = {"bids": [{"bidder": name, "lo": own, "hi": own} for name, own in TRUTHS.items()]}
MARKET = playing.Market(HALL, TRUTHS, playing.keeps_of("17/20,7/10,1/2,0"))


class Program:
    """Answers as a program that refuses the first `stubborn` bids of the opera in a round."""

    def __init__(self, stubborn: int, closed: bool = True) -> None:
        self.stubborn, self.closed = stubborn, closed
        self.bids: list[dict[str, Any]] = []

    def __call__(self, market: Path, rounds: list[Path]) -> tuple[int, bytes]:
        lines, refusals = LINES[:SUBMIT], self.stubborn
        if not rounds:
            return 9, ("\n".join(lines) + "\nend open\n").encode()
        self.bids = json.loads(rounds[-1].read_text())["bids"]
        for bid in self.bids:
            low, high = (" ".join(map(str, [len(bid[end]), *bid[end]])) for end in ("lo", "hi"))
            is_refused = bid["bidder"] == "opera" and refusals > 0
            refusals -= is_refused
            verdict = "43" if is_refused else "accepted"
            lines = lines + [f"submit {bid['bidder']} {low} {high}", f"verdict {verdict}"]
        return 0, ("\n".join(lines + LINES[SETTLE:]) + "\n").encode()


def played(program: Program) -> playing.Played:
    """The market, played with a program."""
    with tempfile.TemporaryDirectory() as folder:
        return playing.Player(MARKET, program, Path(folder)).play()


class Rule(unittest.TestCase):
    """Which bids are tried."""

    def test_bounds_are_rounded_towards_the_truth(self) -> None:
        for low, high, truth, keep, wanted in [
            (55, 70, 57, "17/20", (56, 68)),
            (55, 70, 57, "7/10", (56, 66)),
            (55, 70, 57, "1/2", (56, 63)),
            (55, 70, 57, "0", (57, 57)),
            (55, 70, 57, "1", (55, 70)),
            (-20, -10, -13, "1/2", (-16, -12)),
        ]:
            found = playing.tightened(([low], [high]), [truth], Fraction(keep))
            self.assertEqual(found, ([wanted[0]], [wanted[1]]))

    def test_who_is_refused_tries_again_behind_the_others(self) -> None:
        program = Program(stubborn=2)
        result = played(program)
        self.assertEqual([bid["bidder"] for bid in program.bids], [*TRUTHS, "opera", "opera"])
        opera = [(bid["lo"][0], bid["hi"][0]) for bid in program.bids if bid["bidder"] == "opera"]
        self.assertEqual(opera, [(56, 68), (56, 66), (56, 63)])
        verdicts = ["accepted"] * 2 + ["43"] + ["accepted"] + ["43", "accepted"]
        self.assertEqual((result.rounds, result.refused, result.verdicts), (1, 2, verdicts))

    def test_after_the_last_part_nobody_tries_again(self) -> None:
        program = Program(stubborn=9)
        self.assertEqual((played(program).refused, len(program.bids)), (4, 7))
        self.assertEqual(program.bids[-1]["lo"], [57, 0, 0])


class Proxies(unittest.TestCase):
    """Sessions that the program plays."""

    def test_it_is_given_the_true_values(self) -> None:
        given = []

        def simulate(market: Path, rounds: list[Path]) -> tuple[int, bytes]:
            given.append([json.loads(file.read_text()) for file in (market, *rounds)])
            return 0, ("\n".join(LINES) + "\n").encode()

        with tempfile.TemporaryDirectory() as folder:
            result = playing.Simulator(MARKET, simulate, Path(folder)).play()
        self.assertEqual(given, [[HALL, ROUND]])
        verdicts = [line.split()[1] for line in LINES if line.startswith("verdict")]
        self.assertEqual((result.rounds, result.verdicts), (1, verdicts))

    def test_what_it_refuses(self) -> None:
        def simulate(*_: object) -> tuple[int, bytes]:
            return 2, b"refused 2 92 bids.1\n"

        with tempfile.TemporaryDirectory() as folder:
            with self.assertRaisesRegex(playing.Unplayable, "says: refused 2 92 bids.1"):
                playing.Simulator(MARKET, simulate, Path(folder)).play()


class Numbers(unittest.TestCase):
    """What is printed of a session."""

    def test_receipts(self) -> None:
        # hall: value -20, discounts 40 and 75/2; choir: value 60, discounts 5 and 5/2
        journal = played(Program(stubborn=0)).journal
        found = playing.receipts(journal)
        self.assertEqual(found, (Fraction(115, 2), Fraction(60), Fraction(5), Fraction(20)))
        self.assertEqual(playing.welfare(journal, TRUTHS), 60 - 10 - 10)

    def test_a_line(self) -> None:
        line = playing.cells("here", played(Program(stubborn=1)), TRUTHS)
        wanted = ["here", "closed", "1", "5", "1", "40", "115/2", "60", "5", "20", "10 0"]
        self.assertEqual(line, wanted)

    def test_an_open_journal_has_no_receipts(self) -> None:
        journal = playing.Player(MARKET, Program(0), Path(tempfile.gettempdir())).session()[1]
        self.assertIsNone(playing.receipts(journal))


class Command(unittest.TestCase):
    """The words, and what is refused."""

    def call(self, *words: str, run: playing.Runner | None = Program(0), truths: Any = ROUND, market: Any = HALL) -> tuple[int, list[str], str]:
        output, errors = io.StringIO(), io.StringIO()
        with tempfile.TemporaryDirectory() as folder:
            files = {"m.json": market, "t.json": truths}
            for name, value in files.items():
                Path(folder, name).write_text(json.dumps(value))
            names = [str(Path(folder, name)) for name in files]
            with contextlib.redirect_stdout(output), contextlib.redirect_stderr(errors):
                try:
                    status = playing.main([*names, *words], run)
                except SystemExit as end:
                    status = int(end.code or 0)
        return status, output.getvalue().splitlines(), errors.getvalue()

    def test_a_table(self) -> None:
        status, lines, _ = self.call("--vary", "improve=0,9", "weight=5", "--vary", "rounds=2")
        self.assertEqual((status, lines[0]), (0, "greatest welfare at the true values: not found"))
        self.assertEqual(lines[1].split()[:3], ["setting", "end", "rounds"])
        names = [line.split("  ")[0] for line in lines[2:]]
        self.assertEqual(names, ["as it is", "improve 0", "improve 9", "weight 5", "rounds 2"])

    def test_words(self) -> None:
        for word in ("improve", "improve=x", "improve=-1", "weight=101", "size=1", "rounds=21"):
            self.assertEqual(self.call("--vary", word)[0], 1, word)
        for word in ("1/2", "2,0", "x", "1/0", "-1,0"):
            self.assertEqual(self.call("--keep", word)[0], 1, word)

    def test_wrong_words_are_told_without_names_of_functions(self) -> None:
        for words, told in (
            (("--vary", "rounds=21"), "values of rounds are 0 to 20: rounds=0,20"),
            (("--vary", "size=1"), "the settings are weight, close_regret, cap, "),
            (("--keep", "2,0"), "parts from 0 to 1 are due, with 0 as the last: 1,1/2,0"),
        ):
            self.assertIn(told, self.call(*words)[2])

    def test_truths(self) -> None:
        def with_bid(**change: Any) -> dict[str, Any]:
            return {"bids": [{**ROUND["bids"][0], **change}, *ROUND["bids"][1:]]}

        for truths, words in [
            ({"bids": ROUND["bids"][1:]}, "no bid of hall"),
            (with_bid(hi=[0, -9, -10, -10]), "the same in `lo` and in `hi`"),
            (with_bid(lo=[0], hi=[0]), "1 truths for the 4 nodes of hall"),
            (with_bid(lo=[0, -10, -10, -9], hi=[0, -10, -10, -9]), "at node 3: -9 isn't within"),
            (with_bid(lo=[0.5], hi=[0.5]), "`0.5` is no whole number"),
            (with_bid(lo=7, hi=7), "`lo` an array"),
            ({"bids": 7}, "`bids` is no array"),
            ([], "an array where an object is due"),
        ]:
            status, lines, errors = self.call(truths=truths)
            self.assertEqual((status, lines), (2, []), errors)
            self.assertIn(words, errors)

    def test_markets(self) -> None:
        for market, words in [
            ([], "an array where an object is due"),
            ({**HALL, "settings": 7}, "settings: a number where an object is due"),
            ({**HALL, "settings": HALL["settings"] | {"cap": 0.5}}, "`0.5` is no whole number"),
            ({**HALL, "goods": [1.5]}, "a number that isn't whole"),
        ]:
            status, lines, errors = self.call(market=market)
            self.assertEqual((status, lines), (2, []), errors)
            self.assertIn(words, errors)

    def test_what_the_program_says(self) -> None:
        for said in (b"refused 1 4 settings.cap\n", b"unread 1\n", b"", b"ice 9\n"):
            status, _, errors = self.call(run=lambda market, rounds: (2, said))
            self.assertEqual((status, len(errors.splitlines())), (2, 1), errors)

    def test_a_program_that_is_not_there(self) -> None:
        status, _, errors = self.call("--program", os.devnull, run=None)
        self.assertEqual(status, 6, errors)


@unittest.skipUnless((ROOT / "crates/ice_cli/out/ice_cli").exists(), "the program isn't built")
class Built(unittest.TestCase):
    """The same with the program: the hall closes at the trade that is best at the true values."""

    def test_the_hall(self) -> None:
        run = playing.runner(ROOT / "crates/ice_cli/out/ice_cli")
        with tempfile.TemporaryDirectory() as folder:
            result = playing.Player(MARKET, run, Path(folder)).play()
        self.assertEqual(result.journal.end.word, "closed")
        self.assertEqual(playing.welfare(result.journal, TRUTHS), 40)

    def test_the_hall_by_proxies(self) -> None:
        simulate = playing.runner(ROOT / "crates/ice_cli/out/ice_cli", "simulate")
        with tempfile.TemporaryDirectory() as folder:
            result = playing.Simulator(MARKET, simulate, Path(folder)).play()
        self.assertEqual((result.journal.end.word, result.refused), ("closed", 0))
        self.assertEqual(playing.welfare(result.journal, TRUTHS), 40)


if __name__ == "__main__":
    unittest.main()
