"""Sizes: the greatest journal, one past each limit, and long logs in little memory."""
import hashlib
import subprocess
import sys
import time
import unittest

from largest import BIDDERS, GOODS, NODES, ROUNDS, largest_session, name
from support import HERE, opened, page_of, run, sample

TREE = "bidder {} 0\nnode choose 0 1 1 0 0\nnode buy 0 1 0 0\n"
MEASURED = """
import resource, sys
sys.dont_write_bytecode = True
sys.path.insert(0, sys.argv[1])
from ice_page.command import main
status = main(['-'])
print(resource.getrusage(resource.RUSAGE_SELF).ru_maxrss, file=sys.stderr)
sys.exit(status)
"""
START = "ice 1 assign\nsettings 50 0 100 1 5 200\n"


def assignment(goods: int, trees: list[str]) -> str:
    """A journal of kind assign in which nothing is traded."""
    lines = [f"good g{number}" for number in range(goods)]
    for number, tree in enumerate(trees):
        lines += [f"bidder b{number}" + " 0" * goods, *tree.splitlines()]
    lines += ["assign", *("set " + "0" * tree.count("node") for tree in trees), "end assign"]
    return START + "".join(f"{line}\n" for line in lines)


def wide(nodes: int) -> str:
    """A tree of so many nodes below one root."""
    return f"node choose 0 {nodes - 1} {nodes - 1} 0 0\n" + "node buy 0 1 1 2\n" * (nodes - 1)


def deep(depth: int) -> str:
    """A tree of so many levels."""
    return "node choose 0 1 1 1 2\n" * (depth - 1) + "node buy 0 1 1 2\n"


class Limits(unittest.TestCase):
    """All limits at once, and each by itself."""

    def test_all_at_once(self) -> None:
        journal, start = largest_session(), time.process_time()
        page = page_of(journal, "--unit", "k€")
        self.assertLess(time.process_time() - start, 10)
        self.assertEqual(len(page.root.all("article")), BIDDERS)
        rows = page.table("Who trades what")
        self.assertEqual(
            [cell[:32] for cell in rows[0][1:-1]], [name("good", number) for number in range(GOODS)]
        )
        self.assertEqual(len(page.table("What each pays")), BIDDERS + 4)
        self.assertEqual(len(page.table("What was sure")), ROUNDS + 2)
        prices = page.table("Prices of one unit") + page.table("Prices of more")
        self.assertEqual([len(row) for row in prices], [ROUNDS + 1] * (GOODS + 1))
        self.assertIn("●\xa0800 accepted", page.root.seen())
        self.assertIn("×\xa07,200 refused", page.root.seen())
        searches = page.table("Searches and") + page.table("More") + page.table("The last")
        self.assertEqual(
            len([row for row in searches if row[0] != "search"]), 3 * ROUNDS + 2 + BIDDERS
        )
        self.assertEqual(journal.count("\nnode "), NODES)
        drawn = sum(len(card.all("text", "id")) for card in page.root.all("article"))
        bundles = journal.count("node choose 3 3 3 ")
        slices = page.root.all("article")[0].all("svg")
        self.assertGreater(len(slices), 3)
        self.assertTrue(all(part.all("path", "link") for part in slices))
        self.assertEqual(drawn, NODES - 3 * bundles)

    def test_a_bidder_of_the_largest_session(self) -> None:
        journal = opened(largest_session(), ROUNDS - 1)
        for number in (0, 1):
            start, bidder = time.process_time(), name("bidder", number)
            page = page_of(journal, "--bidder", bidder)
            self.assertLess(time.process_time() - start, 10)
            self.assertIn(f"Round {ROUNDS}: your sets at the prices", page.root.seen())
            bids = journal.count(f"submit {bidder} ")
            self.assertEqual(len(page.table("Your bids")), bids + 1)
            self.assertEqual(bids, 10 * (ROUNDS - 1))

    def test_each_limit(self) -> None:
        lawful = [
            assignment(32, [wide(3)]),
            assignment(1, [wide(3)] * 40),
            assignment(1, [wide(200)] * 10),
            assignment(1, [deep(16)]),
        ]
        for journal in lawful:
            self.assertEqual(run(journal)[0], 0)
        refused = [
            (assignment(33, [wide(3)]), "more than 32 goods"),
            (assignment(1, [wide(3)] * 41), "more than 40 bidders"),
            (assignment(1, [wide(200)] * 10 + [deep(2)]), "more than 2,000 nodes in all"),
            (
                assignment(
                    1, [deep(2), "node choose 0 2 2 0 0\n" + wide(200) + "node buy 0 1 0 0\n"]
                ),
                "more than 200 nodes",
            ),
            (assignment(1, [deep(17)]), "deeper than 16"),
        ]
        for journal, why in refused:
            status, _, errors = run(journal)
            self.assertEqual((status, why in errors), (2, True), errors)
            self.assertRegex(errors, "line [0-9]+: ")

    def test_idle_bidders(self) -> None:
        # Of many bidders that own and trade nothing the tables have no rows, and a line has all
        # names.
        for count in (6, 7):
            trees = ["node sell 0 1 -2 -1\n"] + [wide(2)] * count
            journal = assignment(1, trees).replace("bidder b0 0", "bidder b0 1")
            page = page_of(journal)
            heads = [row[0] for row in page.table("Who trades what")[1:-1]]
            idle = [f"b{number}" for number in range(1, count + 1)]
            few = count == 6
            self.assertEqual(heads, ["b0", *idle] if few else ["b0"])
            words = f"{count} more own nothing and trade nothing: {', '.join(idle)}"
            self.assertEqual(words in page.root.seen(), not few)
            self.assertEqual(len(page.root.all("article")), count + 1)

    def test_names_nobody_has(self) -> None:
        # Refused bids are counted; of the names that no bidder has, the first few are kept.
        bids = "".join(f"submit nobody{number} 0 0\nverdict 45\n" for number in range(500))
        journal = sample("two-settlements.session").replace(
            "submit b 1 5 1 18\n", bids + "submit b 1 5 1 18\n"
        )
        page = page_of(journal)
        self.assertIn("×\xa0507 refused", page.root.seen())
        self.assertIn("nobody0", page.root.seen())
        self.assertNotIn("nobody499", page.root.seen())

    def test_long_logs(self) -> None:
        # 8 MB of short steps, and what stands around them.
        steps = 300_000
        log = "branch 0 0\nnear 2 0 640 1 -72057\n" * steps + "dead 0\n"
        journal = sample("two-settlements.regret").replace("near 1 0 640\n", log)
        # A shell stands between, since a new process begins with the greatest size of the old one.
        words = [
            "sh",
            "-c",
            '"$@"; exit $?',
            "sh",
            sys.executable,
            "-c",
            MEASURED,
            str(HERE.parent),
        ]
        ran = subprocess.run(words, input=journal.encode(), capture_output=True, check=True)
        page = ran.stdout.decode()
        self.assertIn(f'<td class="right">{steps:,}</td>', page)
        self.assertIn(hashlib.sha256(journal.encode()).hexdigest(), page)
        self.assertLess(int(ran.stderr), 64 * 1024)


if __name__ == "__main__":
    unittest.main()
