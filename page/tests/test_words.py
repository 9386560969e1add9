"""Values that stand alone, in words: what a sale wants, and what a purchase pays."""
import unittest

from support import Element, page_of, sample

from ice_page import words

HAND = sample("two-settlements.session")
SELLS, BUYS = "node sell 0 1 -15 -15\n", "node buy 0 1 10 20\n"


def card(journal: str, place: int) -> Element:
    """The card of a bidder."""
    return page_of(journal).root.all("article")[place]


def outline(journal: str, place: int) -> list[str]:
    """The lines of a bidder's tree, as narrow screens show it."""
    (tree,) = card(journal, place).all("div", "outline")
    return [each.text for each in tree.parts]


def labels(journal: str, place: int) -> list[str]:
    """The intervals in the drawing of a bidder's tree."""
    found = card(journal, place).all("text")
    return [each.text for each in found if each.attributes.get("text-anchor") == "end"]


def assignment(owned: int, tree: list[str]) -> str:
    """A journal of one bidder and two goods, in which nothing is traded."""
    head = ["ice 1 assign", "settings 60 0 100 2 5 200", "good A", "good B"]
    rest = [f"bidder b {owned} {owned}", *tree, "assign", "set " + "0" * len(tree), "end assign"]
    return "".join(f"{line}\n" for line in head + rest)


class Stakes(unittest.TestCase):
    """The words of an interval, by side and sign."""

    def test_each_side_and_sign(self) -> None:
        for side, low, high, says in (
            ("sell", -500, -500, "wants at least 500"),
            ("sell", -600, -500, "wants at least 500..600"),
            ("sell", -1200, 0, "wants at least 0..1,200"),
            ("sell", 0, 0, "wants at least 0"),
            ("sell", 500, 500, "pays up to 500 to be rid of it"),
            ("sell", 0, 600, "pays up to 0..600 to be rid of it"),
            ("sell", -5, 3, "wants at least 5, or pays up to 3 to be rid of it"),
            ("buy", 500, 500, "pays up to 500"),
            ("buy", 500, 1600, "pays up to 500..1,600"),
            ("buy", 0, 0, "pays up to 0"),
            ("buy", -600, -500, "wants at least 500..600 to take it"),
            ("buy", -5, 0, "wants at least 0..5 to take it"),
            ("buy", -5, 3, "wants at least 5 to take it, or pays up to 3"),
        ):
            self.assertEqual(words.stake(side, low, high), says, (side, low, high))


class Trees(unittest.TestCase):
    """Where a tree says its values in words, and where in numbers."""

    def test_a_value_by_itself(self) -> None:
        self.assertEqual(labels(HAND, 0), ["wants at least 15"])
        self.assertEqual(labels(HAND, 1), ["pays up to 16..18"])
        self.assertEqual(outline(HAND, 0), ["● 0 sell A: wants at least 15"])
        self.assertEqual(outline(HAND, 1), ["● 0 buy A: pays up to 16..18 (opening: 10..20)"])

    def test_a_reserve_with_the_wrong_sign(self) -> None:
        # Wants 500 to 600, and says that it pays as much.
        journal = HAND.replace(SELLS, "node sell 0 1 500 600\n")
        says = "pays up to 500..600 to be rid of it"
        self.assertEqual(labels(journal, 0), [says])
        self.assertEqual(outline(journal, 0), [f"● 0 sell A: {says}"])
        self.assertNotIn("Against the usual sign", card(journal, 0).seen())

    def test_several_values(self) -> None:
        # The drawing keeps numbers, and what has an unusual sign stands above it in words.
        tree = ["node choose 0 1 2 0 0", "node sell 0 1 500 600", "node sell 1 1 -30 -20"]
        journal = assignment(1, tree)
        self.assertEqual(labels(journal, 0), ["500..600", "−30..−20"])
        rid = "pays up to 500..600 to be rid of it"
        lines = [f"○ 1 sell A: {rid}", "○ 2 sell B: wants at least 20..30"]
        self.assertEqual(outline(journal, 0)[1:], lines)
        says = f"Against the usual sign: “sell A” (node 1) {rid}."
        self.assertIn(says, card(journal, 0).seen())
        usual = assignment(1, [tree[0], "node sell 0 1 -600 -500", tree[2]])
        self.assertNotIn("Against the usual sign", card(usual, 0).seen())

    def test_a_purchase_below_zero(self) -> None:
        tree = ["node choose 0 1 2 0 0", "node buy 0 1 -9 -8", "node buy 1 1 20 30"]
        says = "Against the usual sign: “buy A” (node 1) wants at least 8..9 to take it."
        self.assertIn(says, card(assignment(0, tree), 0).seen())

    def test_a_value_below_another(self) -> None:
        # A leaf's value isn't all that counts where a node above it has one too.
        tree = ["node choose 0 1 1 100 100", "node choose 1 1 1 0 0", "node buy 0 1 -5 -5"]
        journal = assignment(0, tree)
        self.assertEqual(outline(journal, 0)[2:], ["○ 2 buy A: −5"])
        self.assertNotIn("Against the usual sign", card(journal, 0).seen())

    def test_bundles(self) -> None:
        # A bundle that only sells is a sale; of one that buys too the value is a number.
        leaves = ["node sell 0 1 0 0", "node sell 1 1 0 0"]
        journal = assignment(1, ["node choose 2 2 2 -70 -60", *leaves])
        self.assertEqual(labels(journal, 0), ["wants at least 60..70"])
        journal = assignment(1, ["node choose 2 2 2 -70 -60", leaves[0], "node buy 1 1 0 0"])
        self.assertEqual(labels(journal, 0), ["−70..−60"])

    def test_many_with_an_unusual_sign(self) -> None:
        tree = ["node choose 0 8 8 0 0", *["node sell 0 1 2 2"] * 8]
        says = card(assignment(1, tree), 0).seen()
        self.assertIn("(node 6) pays up to 2 to be rid of it and 2 more.", says)
        self.assertNotIn("(node 7)", says)

    def test_another_verb_in_the_opening(self) -> None:
        # Of an opening on both sides of 0 all words stand; of one on the same side the numbers.
        journal = HAND.replace(BUYS, "node buy 0 1 -10 20\n")
        opening = "(opening: wants at least 10 to take it, or pays up to 20)"
        self.assertEqual(outline(journal, 1), [f"● 0 buy A: pays up to 16..18 {opening}"])


if __name__ == "__main__":
    unittest.main()
