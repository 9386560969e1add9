"""Files that were damaged: each has an answer in words, whatever stands in it."""
import random
import unittest

from support import ROOT, collect, sheet
from test_market import EXCHANGE, TABLE

TABLES, BIDS = 300, 200
PIECES = [b",", b";", b'"', b"\n", b"\r", b"\0", b"\xff", b"-", b"9" * 30, b"=", b"own", b"xor!"]


def damaged(data: bytes, draw: random.Random) -> bytes:
    """The bytes with one to four changes."""
    for _ in range(draw.randint(1, 4)):
        place, piece = draw.randrange(len(data) + 1), draw.choice(PIECES)
        data = data[:place] + piece + data[place + draw.randint(0, 4) :]
    return data


class Damage(unittest.TestCase):
    """Every damaged file is taken or refused with words."""

    def test_tables(self) -> None:
        draw, seen = random.Random(1), set()
        table = b"".join((ROOT / "examples/packages.csv").read_bytes().splitlines(True)[:15])
        for text in [damaged(table, draw) for _ in range(TABLES)]:
            status, made, errors = sheet(text)
            seen.add(status)
            self.assertEqual((status in (0, 2), bool(errors)), (True, True), text)
            self.assertEqual(made is None, status == 2, text)
        self.assertEqual(seen, {0, 2})

    def test_rounds(self) -> None:
        draw, seen = random.Random(2), set()
        for text in [damaged(TABLE.encode(), draw) for _ in range(BIDS)]:
            status, made, _ = sheet(text, "--market", "m.json", m=EXCHANGE)
            seen.add(status)
            self.assertEqual(made is None, status == 2, text)
        self.assertEqual(seen, {0, 2})

    def test_bids(self) -> None:
        draw, seen = random.Random(3), set()
        bid = b'{"bidder": "b", "lo": [0, 30, 0, 0, 20, 0], "hi": [0, 40, 0, 0, 25, 0]}'
        for text in [damaged(bid, draw) for _ in range(BIDS)]:
            files = {"m.json": EXCHANGE, "b.json": text}
            status, made, errors = collect(files, "m.json", "b.json")
            seen.add(status)
            self.assertEqual(made["bids"] == [], status == 3, errors)
        self.assertIn(3, seen)


if __name__ == "__main__":
    unittest.main()
