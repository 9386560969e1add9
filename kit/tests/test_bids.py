"""Bids that are tried in the kit: by hand, as `page/` reckons them, and as the program judges them."""
from __future__ import annotations

import io
import json
import random
import re
import subprocess
import tempfile
import unittest
from fractions import Fraction
from pathlib import Path
from typing import Any

import drawn
from support import HERE, PROGRAM, ROOT, asked, encoded, needs_node, needs_program, so_far, statements

from ice_page import rules
from ice_page.journal import Bounds, Lines, Node, Bidder, read_journal
from ice_page.rules import Offer

HALL = (ROOT / "examples/hall-session.journal").read_bytes()
COUNT = 400
NAMES = ("hall", "choir", "opera", "dance")


def offer_of(name: str) -> Offer:
    """What round 1 of the hall's session began with for a bidder."""
    journal = read_journal(Lines(io.BytesIO(HALL)))
    found = rules.offer(journal, journal.settlements[0], NAMES.index(name))
    assert found is not None
    return found


def tries(offer: Offer, goods: int, *bids: Bounds) -> list[dict[str, Any]]:
    """What the kit says of these bids."""
    return asked(drawn.question(offer, goods, bid) for bid in bids)


def sixths(number: int) -> dict[str, str]:
    """So many sixths, as the kit spells them."""
    return drawn.spelled(Fraction(number, 6))


@needs_node
class ByHand(unittest.TestCase):
    """The hall, as its tutorial reckons it: prices 170/6, 200/6 and 95/6, `improve` 5."""

    def test_choir(self) -> None:
        offer = offer_of("choir")
        found = tries(offer, 3, *(([0, low, 0, 0, 20], [0, 80, 0, 0, 30]) for low in (60, 62, 76, 75)))
        self.assertEqual([each["verdict"] for each in found], ["42", "42", "accepted", "42"])
        # Of the opening intervals Wednesday leaves most by the middles, and the two days may lead it.
        self.assertEqual(found[0]["first"], {"holds": False, "wanted": "10001", "other": "11110", "gap": sixths(85)})
        # At 62 the two days leave 2/6 at least, and Wednesday 85/6 at most.
        self.assertEqual(found[1]["first"], {"holds": False, "wanted": "11110", "other": "10001", "gap": sixths(83)})
        rows = found[0]["table"]["rows"]
        self.assertEqual(
            [(row["bits"], row["cost"], row["least"], row["most"], row["state"], row["isProvisional"]) for row in rows],
            [
                ("11110", sixths(370), sixths(-10), sixths(110), "open", True),
                ("10001", sixths(95), sixths(25), sixths(85), "open", False),
                ("00000", sixths(0), sixths(0), sixths(0), "behind", False),
            ],
        )
        states = [[row["state"] for row in each["table"]["rows"]] for each in found]
        # At 76 Wednesday leaves less at most than the two days at least, so it has no row.
        self.assertEqual(states[2], ["sure", "behind"])
        self.assertEqual([each["table"]["sets"] for each in found], ["3"] * 4)

    def test_opera(self) -> None:
        offer = offer_of("opera")
        bids = [([55, 0, 0], [high, 0, 0]) for high in (75, 68, 66, 65)]
        found = tries(offer, 3, *bids, ([66, 0, 0], [70, 0, 0]), ([60, 0, 0], [59, 0, 0]), ([60, 0], [65, 0, 0]))
        verdicts = [(each["verdict"], each["node"]) for each in found]
        due = [("40", 0), ("43", None), ("43", None), ("accepted", None), ("accepted", None), ("41", 0), ("46", None)]
        self.assertEqual(verdicts, due)
        # It costs 295/6: 70, 68, 65 and 55 less that.
        amounts = {"before": sixths(125), "now": sixths(113), "most": sixths(95), "gain": sixths(35)}
        self.assertEqual(found[1]["second"], amounts | {"holds": False, "other": "111"})
        for each in (found[0], found[5], found[6]):
            self.assertEqual((each.get("first"), each["table"]), (None, None))

    def test_a_tree_of_many_sets(self) -> None:
        # 32 leaves of prices 1, 2, 3 .., each worth its price or up to 10 more or less.
        root = Node(0, "choose", 0, 32, None, 1, list(range(1, 33)))
        nodes = [root, *(Node(child, "buy", child - 1, 1, 0, 2) for child in root.children)]
        low, high = ([0, *(child + more for child in root.children)] for more in (-10, 10))
        prices = [Fraction(child) for child in root.children]
        offer = Offer(Bidder("b", [0] * 32, nodes), (low, high), prices, "0" * 33, 1)
        (found,) = tries(offer, 32, (low, high))
        table = found["table"]
        self.assertEqual((table["extent"], table["sets"], len(table["rows"])), ("first", str(1 + 2**32), 21))
        self.assertEqual([row["most"]["top"] for row in table["rows"]], ["320"] + ["310"] * 19 + ["0"])
        self.assertEqual(found, drawn.due(offer, 32, (low, high)))


@needs_node
class Drawn(unittest.TestCase):
    """Bids that are drawn from seeds."""

    def test_they_agree(self) -> None:
        verdicts: list[str] = []
        for found in drawn.all_tried(COUNT, 1_000_000):
            self.assertEqual(found.faults, [])
            verdicts += found.verdicts
        self.assertGreaterEqual(len(verdicts), COUNT)
        self.assertEqual(set(verdicts), {"accepted", "40", "41", "42", "43", "46"})
        for verdict in ("accepted", "42", "43"):
            self.assertGreater(verdicts.count(verdict), 30)

    def test_the_script(self) -> None:
        script = str(HERE / "drawn.py")
        ran = subprocess.run([script, "10", "7"], capture_output=True, text=True, check=False)
        self.assertEqual((ran.returncode, ran.stderr), (0, ""))
        self.assertRegex(ran.stdout, r"(?s)\A1\d bids in \d statements.*\n0 differ\n\Z")
        wrong: list[list[str]] = [[], ["x"], ["1", "2", "3"]]
        for words in wrong:
            ran = subprocess.run([script, *words], capture_output=True, text=True, check=False)
            self.assertEqual((ran.returncode, ran.stdout), (2, ""))


@needs_node
class Nets(unittest.TestCase):
    """The kit's table has what `page/ice-nets` prints."""

    def test_the_hall(self) -> None:
        for name, text in statements(so_far(HALL, 0)).items():
            offer = offer_of(name)
            (found,) = tries(offer, 3, offer.bounds)
            with tempfile.NamedTemporaryFile() as file:
                file.write(text)
                file.flush()
                command = [str(ROOT / "page/ice-nets"), file.name, name]
                ran = subprocess.run(command, capture_output=True, text=True, check=True)
            printed = [self.row(line) for line in ran.stdout.splitlines() if re.search(r"no(des)? [0-9n]", line)]
            shown = [
                tuple(Fraction(int(row[part]["top"]), int(row[part]["bottom"])) for part in ("cost", "least", "most"))
                for row in found["table"]["rows"]
            ]
            self.assertEqual([row for row in printed if row], shown, ran.stdout)

    def row(self, line: str) -> tuple[Fraction, ...] | None:
        """The amounts of a line of the table; None of any other line."""
        amounts = re.match(r"[ *] +" + r"(~?-?[\d.]+(?: \(-?\d+/\d+\))?)  +" * 3, line)
        if amounts is None:
            return None
        return tuple(Fraction(re.sub(r".*\((.*)\)", r"\1", amount)) for amount in amounts.groups())


@needs_node
@needs_program
class Program(unittest.TestCase):
    """The program gives bids the verdicts that the kit gives."""

    def run_rounds(self, folder: Path, rounds: list[list[dict[str, Any]]]) -> bytes:
        """The journal of the hall's session with these rounds."""
        files = []
        for number, bids in enumerate(rounds):
            file = folder / f"{number}.json"
            file.write_text(json.dumps({"bids": bids}))
            files.append(str(file))
        command = [str(PROGRAM), "run", str(ROOT / "examples/hall.json"), *files]
        ran = subprocess.run(command, stdout=subprocess.PIPE, check=False)
        self.assertIn(ran.returncode, (0, 9))
        return ran.stdout

    def test_rounds_of_the_hall(self) -> None:
        judged = 0
        offers = {name: offer_of(name) for name in NAMES}
        for seed in range(8):
            draw = random.Random(seed)
            bids, due = [], []
            for name, offer in offers.items():
                own = [drawn.drawn_bid(draw, offer.bounds) for _ in range(8)]
                found = [answer["verdict"] for answer in tries(offer, 3, *own)]
                first = found.index("accepted") if "accepted" in found else len(found)
                due += found[: first + 1] + ["44"] * (len(found) - first - 1)
                bids += [{"bidder": name, "lo": low, "hi": high} for low, high in own]
            with tempfile.TemporaryDirectory() as folder:
                journal = self.run_rounds(Path(folder), [bids])
            verdicts = re.findall(rb"^verdict (\w+)", journal, re.MULTILINE)
            self.assertEqual([verdict.decode() for verdict in verdicts], due, seed)
            judged += len(verdicts)
            texts = statements(journal)
            audits = asked({"kind": "audit", "content": encoded(text)} for text in texts.values())
            for name, answer in zip(texts, audits):
                self.assertTrue(answer["status"] == 0 or answer["told"]["isOpen"], (seed, name, answer["line"]))
        self.assertEqual(judged, 8 * 8 * len(NAMES))


if __name__ == "__main__":
    unittest.main()
