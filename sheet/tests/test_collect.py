"""Single bids, joined into a round file: which are put aside, and why."""
import json
import resource
import shutil
import subprocess
import sys
import tempfile
import unittest
from pathlib import Path
from typing import IO, Any

from support import ROOT, collect
from test_market import EXCHANGE, FLAT

LO, HI = [0, 30, 0, 0, 20, 0], [0, 40, 0, 0, 25, 0]
BID: dict[str, Any] = {"bidder": "b", "lo": LO, "hi": HI}
DEEP = "[" * 128 + "]" * 128


def files(*bids: Any) -> tuple[Any, ...]:
    """The files of a market and bids, and their names as words."""
    named = {f"{n}.json": bid for n, bid in enumerate(bids)}
    return {"m.json": EXCHANGE, **named}, "m.json", *named


def limited(folder: str, memory: int, *words: str) -> subprocess.CompletedProcess[str]:
    """A command of the examples in a process that may take so many bytes of memory."""
    command, *others = words
    return subprocess.run(
        [sys.executable, str(ROOT / "examples" / command), *others],
        cwd=folder,
        capture_output=True,
        text=True,
        check=False,
        preexec_fn=lambda: resource.setrlimit(resource.RLIMIT_AS, (memory, memory)),
    )


def called(output: IO[Any] | int, *words: str) -> subprocess.CompletedProcess[str]:
    """The command in a process with this standard output, on files of the checkout."""
    return subprocess.run(
        [sys.executable, "examples/collect.py", *words],
        cwd=ROOT,
        stdout=output,
        stderr=subprocess.PIPE,
        text=True,
        check=False,
    )


class Collect(unittest.TestCase):
    """What goes into the round file."""

    def test_the_order_is_that_of_the_words(self) -> None:
        other = BID | {"lo": HI}
        status, made, errors = collect(*files(BID, {"bids": [other, BID]}, other))
        self.assertEqual((status, made), (0, {"bids": [BID, other, BID, other]}))
        again = "b has 4 bids, in 0.json, 1.json: bids.0, 1.json: bids.1 and 1 more"
        told = [f"{again}: the first accepted one counts", "4 bids taken, 0 put aside"]
        self.assertEqual(errors, told)

    def test_a_market_of_flat_bids(self) -> None:
        status, made, _ = collect({"m.json": FLAT, "b.json": BID}, "m.json", "b.json")
        self.assertEqual((status, made), (0, {"bids": [BID]}))

    def test_what_is_put_aside(self) -> None:
        for bid, words in [
            (7, "[2] at -: a number where a bid is due"),
            ({**BID, "more": 1}, "[2] at -: a bid has just the members bidder, lo and hi: `more`"),
            ({"bidder": "b", "lo": LO}, "[2] at -: a bid has just the members bidder, lo and hi"),
            ({**BID, "bidder": 7}, "[2] at bidder: a number where a name is due"),
            ({**BID, "bidder": ""}, "[13] at bidder"),
            ({**BID, "bidder": "Bäcker"}, "[13] at bidder: `Bäcker` is no lawful name"),
            ({**BID, "bidder": "n" * 33}, "[13] at bidder"),
            ({**BID, "lo": 16}, "[2] at lo: a number where an array of values is due"),
            ({**BID, "lo": ["16"]}, "[2] at lo.0: a text where a number is due"),
            ({**BID, "lo": [0, True]}, "[2] at lo.1: true or false"),
            ({**BID, "lo": [0, 16.5]}, "[3] at lo.1: `16.5` is no whole number"),
            ('{"bidder": "b", "lo": [1.0], "hi": []}', "[3] at lo.0: `1.0`"),
            ('{"bidder": "b", "lo": [1e3], "hi": []}', "[3] at lo.0: `1e3`"),
            ('{"bidder": "b", "lo": [-0], "hi": []}', "[3] at lo.0: `-0`"),
            ({**BID, "lo": [2**64]}, "[3] at lo.0"),
            ({**BID, "lo": [2**64 - 1]}, "[4] at lo.0"),
            ({**BID, "hi": [0, 1000000001]}, "[4] at hi.1: 1000000001 is beyond 1,000,000,000"),
            ({**BID, "hi": [-1000000001]}, "[4] at hi.0"),
            ({**BID, "hi": [0] * 201}, "[4] at hi: 201 values"),
            ({**BID, "bidder": "c"}, "verdict 45: the market has no bidder `c`"),
            ({**BID, "lo": LO[1:]}, "verdict 46: `lo` has 5 values for the 6 nodes of b"),
            ({**BID, "hi": [*HI, 0]}, "verdict 46: `hi` has 7 values for the 6 nodes of b"),
            ("{", "no JSON: Expecting property name enclosed in double quotes: line 1 column 2"),
            ("", "no JSON"),
            (b"\xef\xbb\xbf{}", "no JSON: a byte order mark stands in front"),
            (b'{"bidder": "\xe4"}', "no JSON: byte 13 is no UTF-8"),
            ('{"bidder": "\\ud800"}', "no JSON: half of a surrogate pair"),
            ('{"lo": NaN}', "no JSON: NaN"),
            ('{"lo": 1e400}', "no JSON: `1e400` is too large to be read"),
            ('{"lo": %s}' % ("9" * 400), "is too large to be read"),
            (DEEP, "no JSON: more than 127 arrays and objects in one another"),
            ("[" * 600 + "]" * 600, "no JSON"),
            ("[" * 100000, "no JSON"),
        ]:
            status, made, errors = collect(*files(bid, BID))
            self.assertEqual((status, made), (3, {"bids": [BID]}), errors)
            self.assertTrue(errors[0].startswith("0.json: put aside: "), errors)
            self.assertIn(words, errors[0])
            self.assertEqual(errors[1:], ["1 bid taken, 1 put aside"])

    def test_one_of_a_round_file(self) -> None:
        status, made, errors = collect(*files({"bids": [BID, 7]}))
        self.assertEqual((status, made), (3, {"bids": [BID]}))
        self.assertIn("0.json: bids.1: put aside: [2] at -", errors[0])

    def test_the_401st_bid(self) -> None:
        status, made, errors = collect(*files({"bids": [BID] * 399}, BID, BID))
        self.assertEqual((status, len(made["bids"])), (3, 400))
        self.assertEqual(errors[0], "2.json: put aside: [4] at bids: a round has at most 400 bids")

    def test_a_file_of_more_than_400_bids_is_put_aside_as_a_whole(self) -> None:
        status, made, errors = collect(*files({"bids": [BID] * 401}, BID))
        self.assertEqual((status, made), (3, {"bids": [BID]}))
        why = "0.json: put aside: [4] at bids: 401 bids: a round has at most 400 bids"
        self.assertEqual(errors, [why, "1 bid taken, 1 put aside"])
        # a line for each of 300,000
        status, made, errors = collect(*files('{"bids":[' + "7," * 300_000 + "7]}", BID))
        self.assertEqual((status, made, len(errors)), (3, {"bids": [BID]}, 2))

    def test_of_one_file_the_first_20_bids_put_aside_have_a_line(self) -> None:
        status, made, errors = collect(*files({"bids": [7] * 100 + [BID]}, 7))
        self.assertEqual((status, made), (3, {"bids": [BID]}))
        self.assertTrue(errors[19].startswith("0.json: bids.19: put aside"), errors[19])
        self.assertEqual(errors[20], "0.json: and 80 more put aside")
        self.assertTrue(errors[21].startswith("1.json: put aside"), errors[21])
        self.assertEqual(errors[22:], ["1 bid taken, 101 put aside"])

    def test_no_more_of_a_file_is_read_than_shows_that_it_is_too_long(self) -> None:
        with tempfile.TemporaryDirectory() as folder:
            for name, value in (("m.json", EXCHANGE), ("1.json", BID)):
                (Path(folder) / name).write_text(json.dumps(value))
            (Path(folder) / "t.csv").write_text("bidder,bid,lo,hi,berth\np,own,,,1\np,or,-1,-1,-1\n")
            with open(Path(folder) / "0.json", "wb") as long:
                long.truncate(1 << 30)
            ran = limited(folder, 150 << 20, "collect.py", "m.json", "0.json", "1.json")
            others = [
                limited(folder, 150 << 20, *words)
                for words in (
                    ("collect.py", "0.json", "1.json"),
                    ("sheet.py", "0.json"),
                    ("sheet.py", "t.csv", "--market", "0.json"),
                    ("sheet.py", "t.csv", "--settings", "0.json"),
                )
            ]
        self.assertEqual((ran.returncode, ran.stdout), (3, json.dumps({"bids": [BID]}) + "\n"))
        self.assertIn("0.json: put aside: the file is longer than 16,777,216 bytes", ran.stderr)
        for other in others:
            self.assertEqual((other.returncode, other.stdout), (2, ""), other.stderr)
            self.assertIn(" is longer than 16,777,216 bytes", other.stderr)

    def test_a_member_that_stands_twice(self) -> None:
        bid = '{"bidder": "b", "lo": %s, "hi": %s, "lo": %s}' % (LO, HI, LO)
        why = "put aside: the member `lo` stands twice, and only one can be meant"
        for text, place in ((bid, "0.json"), (f'{{"bids": [{bid}]}}', "0.json: bids.0")):
            status, made, errors = collect(*files(text, BID))
            self.assertEqual((status, made), (3, {"bids": [BID]}))
            self.assertEqual(errors[0], f"{place}: {why}")
        text = '{"bids": [], "bids": [%s]}' % json.dumps(BID)
        status, made, errors = collect(*files(text, BID))
        self.assertEqual((status, made), (3, {"bids": [BID]}))
        self.assertEqual(errors[0], f"0.json: {why.replace('`lo`', '`bids`')}")

    def test_a_folder_has_its_files_in_the_order_of_their_names(self) -> None:
        other = BID | {"lo": HI}
        with tempfile.TemporaryDirectory() as folder:
            words = ["m.json", folder, "0.json"]
            self.assertEqual(collect(files(BID)[0], *words)[:2], (0, {"bids": [BID]}))
            self.assertEqual(collect(files(BID)[0], *words[:2])[:2], (0, {"bids": []}))
            for name, value in (("2.json", BID), ("10.json", other), (".json", 7), ("3.txt", 7)):
                (Path(folder) / name).write_text(json.dumps(value))
            status, made, errors = collect(files(BID)[0], *words)
        self.assertEqual((status, made), (0, {"bids": [other, BID, BID]}))
        self.assertEqual(errors[0], f"{folder}/3.txt: not read: its name doesn't end in .json")

    def test_the_bids_put_aside_do_not_overwrite_what_is_read(self) -> None:
        for words in (["0.json", "--aside", "m.json"], ["0.json", "--aside", "./0.json"]):
            status, made, errors = collect(files(BID)[0], "m.json", *words)
            self.assertEqual((status, made), (1, None))
            self.assertIn(f"--aside would overwrite {words[2].removeprefix('./')}", errors[-1])
        with tempfile.TemporaryDirectory() as folder:
            (Path(folder) / "1.json").write_text(json.dumps(BID))
            words = ["m.json", folder, "--aside", f"{folder}/1.json"]
            self.assertEqual(collect(files(BID)[0], *words)[0], 1)
            self.assertEqual(json.loads((Path(folder) / "1.json").read_text()), BID)

    def test_bids_put_aside_are_written(self) -> None:
        bad = {**BID, "lo": [0, 0.5]}
        with tempfile.NamedTemporaryFile() as file:
            status, _, _ = collect(*files(BID, bad, "{"), "--aside", file.name)
            aside = json.load(file)["aside"]
        self.assertEqual(status, 3)
        self.assertEqual([each["file"] for each in aside], ["1.json", "2.json"])
        self.assertEqual([each["bid"] for each in aside], [{**BID, "lo": [0, "0.5"]}, None])
        self.assertIn("[3] at lo.1", aside[0]["reason"])

    def test_what_can_not_be_read(self) -> None:
        for words, wanted in [
            (["m.json", "absent.json"], 6),
            (["absent.json", "0.json"], 6),
            (["0.json", "0.json"], 2),
            (["m.json"], 1),
            (["m.json", "0.json", "--aside", "absent/file"], 7),
        ]:
            status, made, errors = collect(files(BID)[0], *words)
            self.assertEqual((status, made), (wanted, None), errors)

    def test_what_can_not_be_written_is_named(self) -> None:
        status, made, errors = collect(files(BID)[0], "m.json", "0.json", "--aside", "/dev/full")
        self.assertEqual((status, made), (7, None))
        self.assertEqual(errors[-1], "/dev/full: No space left on device")
        with open("/dev/full", "wb") as full:
            ran = called(full, "examples/hall.json", "examples/hall-round.json")
        told = "collect: standard output: No space left on device"
        self.assertEqual((ran.returncode, ran.stderr.splitlines()[-1]), (7, told))

    def test_bids_may_stand_behind_an_option(self) -> None:
        words = ["m.json", "--named", "1-b.json", "--named", "2-b.json"]
        made = collect({"m.json": EXCHANGE, "1-b.json": BID, "2-b.json": BID}, *words)[1]
        self.assertEqual(made, {"bids": [BID, BID]})


class Senders(unittest.TestCase):
    """Whose bid a file may have."""

    CHOIR = {"bidder": "choir", "lo": [0, 60, 0, 0, 20], "hi": [0, 70, 0, 0, 30]}
    OPERA = {"bidder": "opera", "lo": [55, 0, 0], "hi": [60, 0, 0]}

    def collected(self, bids: dict[str, Any], *words: str) -> tuple[int, list[str], list[str]]:
        """The bids that are taken on the market of the examples, and the lines."""
        market = (ROOT / "examples/hall.json").read_bytes()
        status, made, errors = collect({"m.json": market, **bids}, "m.json", *bids, *words)
        return status, [bid["bidder"] for bid in made["bids"]], errors

    def test_a_file_has_no_bid_of_another_bidder(self) -> None:
        bids = {"1405-choir.json": self.OPERA, "1410-opera.json": self.OPERA}
        status, taken, errors = self.collected(bids, "--named")
        self.assertEqual((status, taken), (3, ["opera"]))
        why = "the file is of `choir`, and the bid of `opera`"
        self.assertEqual(errors, [f"1405-choir.json: put aside: {why}", "1 bid taken, 1 put aside"])
        bids = {"1405-choir.json": {"bids": [self.CHOIR, self.OPERA]}}
        status, taken, errors = self.collected(bids, "--named")
        self.assertEqual((status, taken), (3, ["choir"]))
        self.assertEqual(errors[0], f"1405-choir.json: bids.1: put aside: {why}")

    def test_a_name_may_have_the_sign_that_cuts_it(self) -> None:
        bid = {"bidder": "Alpine-Connect", "lo": [1], "hi": [1]}
        for name, aside in (("14:05_1-Alpine-Connect.json", False), ("1405-Alpine.json", True)):
            _, _, errors = self.collected({name: bid}, "--named")
            self.assertEqual("the file is of" in errors[0], aside, errors)

    def test_a_file_with_another_name_is_nobodys(self) -> None:
        for name in ("choir.json", "late-choir.json", "1405-choir.txt", "1405choir.json", "1405-.json"):
            status, taken, errors = self.collected({name: self.CHOIR}, "--named")
            self.assertEqual((status, taken), (3, []))
            self.assertIn("the file's name is not of the form TIME-NAME.json", errors[0])

    def test_without_a_test_of_senders_what_looks_odd_is_named(self) -> None:
        bids = {"1405-choir.json": {"bids": [self.OPERA, self.CHOIR]}, "1410-opera.json": self.OPERA}
        status, taken, errors = self.collected(bids)
        self.assertEqual((status, taken), (0, ["opera", "choir", "opera"]))
        self.assertEqual(
            errors,
            [
                "1405-choir.json has bids of opera, choir: --named tests who sent them",
                "opera has 2 bids, in 1405-choir.json: bids.0, 1410-opera.json: the first accepted "
                "one counts",
                "3 bids taken, 0 put aside",
            ],
        )


class Edited(unittest.TestCase):
    """The round file of an edited copy of a market."""

    def bids(self, value: Any, *words: str) -> Any:
        program = ["jq", "-c", *words, "-f", str(ROOT / "examples/bids.jq")]
        ran = subprocess.run(program, input=json.dumps(value), capture_output=True, text=True)
        self.assertEqual(ran.returncode, 0, ran.stderr)
        return json.loads(ran.stdout)["bids"]

    @unittest.skipUnless(shutil.which("jq"), "jq is missing")
    def test_both_forms(self) -> None:
        for market in (EXCHANGE, FLAT):
            bids = self.bids(market)
            self.assertEqual([bid["bidder"] for bid in bids], ["s", "b"])
            self.assertEqual(self.bids(market, "--arg", "bidder", "b"), [BID])
            self.assertEqual(collect(*files(*bids))[:2], (0, {"bids": bids}))


if __name__ == "__main__":
    unittest.main()
