"""Satisfied sets: the same as by trying every list of bits, and quick at the limits."""
import random
import time
import unittest
from itertools import islice

from drawn import all_sets, drawn_tree

from ice_page import sets
from ice_page.journal import Node


def wide(least: int, most: int, children: int) -> list[Node]:
    """A choice among so many leaves."""
    root = Node(0, "choose", least, most, None, 1, list(range(1, children + 1)))
    return [root, *(Node(child, "buy", 0, 1, 0, 2) for child in root.children)]


class Sets(unittest.TestCase):
    """What is found of a tree."""

    def test_as_by_trying_all(self) -> None:
        sizes = set()
        for seed in range(120):
            draw = random.Random(seed)
            nodes = drawn_tree(draw, 7)
            if len(nodes) > 11:
                continue
            weights = [draw.randrange(-5, 6) for _ in nodes]
            every = all_sets(nodes)
            found = list(sets.in_order(nodes, weights))
            self.assertEqual(sorted(each.bits for each in found), sorted(every), seed)
            falling = sorted((sets.weight_of(weights, bits) for bits in every), reverse=True)
            self.assertEqual([each.weight for each in found], falling, seed)
            self.assertEqual(
                falling, [sets.weight_of(weights, each.bits) for each in found], seed
            )
            best = sets.best(nodes, weights)
            self.assertEqual(best.weight, falling[0], seed)
            self.assertEqual(best.weight, sets.weight_of(weights, best.bits), seed)
            self.assertIn(best.bits, every)
            self.assertEqual(sets.how_many(nodes), len(every), seed)
            sizes.add(len(every))
        self.assertGreater(len(sizes), 20)

    def test_counts_by_hand(self) -> None:
        # The empty set, and of 5 children 2 or 3: 10 + 10; of 199 all subsets.
        self.assertEqual(sets.how_many(wide(2, 3, 5)), 21)
        self.assertEqual(sets.how_many(wide(0, 199, 199)), 1 + 2**199)

    def test_a_thousand_sets_of_the_largest_trees(self) -> None:
        draw = random.Random(7)
        for least, most in ((0, 199), (0, 100), (50, 150), (1, 1)):
            nodes = wide(least, most, 199)
            weights = [0, *(draw.randrange(-100, 100) for _ in range(199))]
            begun = time.process_time()
            found = list(islice(sets.in_order(nodes, weights), 1000))
            self.assertLess(time.process_time() - begun, 5)
            self.assertEqual(len({each.bits for each in found}), 200 if most == 1 else 1000)
            self.assertEqual(found[0].weight, sets.best(nodes, weights).weight)
            pairs = zip(found, found[1:])
            self.assertTrue(all(one.weight >= other.weight for one, other in pairs))

    def test_ties_take_the_empty_set(self) -> None:
        self.assertEqual(sets.best(wide(0, 2, 2), [0, 0, 0]), (0, "000"))
        self.assertEqual(sets.best(wide(1, 1, 2), [-3, 3, 3]), (0, "000"))

    def test_choices_that_no_children_meet(self) -> None:
        # No journal that passes has them; a page of one is made all the same.
        nodes = wide(3, 3, 2)
        self.assertEqual([each.bits for each in sets.in_order(nodes, [1, 1, 1])], ["000"])
        self.assertEqual(sets.how_many(nodes), 1)


if __name__ == "__main__":
    unittest.main()
