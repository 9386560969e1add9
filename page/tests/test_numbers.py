"""Numbers as they are read by people, each row reckoned by hand."""
import unittest
from fractions import Fraction

import support  # noqa: F401

from ice_page import numbers

DECIMALS: list[tuple[Fraction | int, str]] = [
    (0, "0"),
    (-1234567, "−1,234,567"),
    (Fraction(1, 2), "0.5"),
    (Fraction(-31, 2), "−15.5"),
    (Fraction(1, 8), "0.125"),
    (Fraction(1, 16), "≈0.062"),
    (Fraction(1, 3), "≈0.333"),
    (Fraction(-2, 3), "≈−0.667"),
    (Fraction(-1, 9999), "≈0.000"),
    (Fraction(19999, 10), "1,999.9"),
    (Fraction(5999999, 3000), "≈2,000.000"),
]
PLACED: list[tuple[Fraction | int, int, str]] = [
    (Fraction(1, 4), 2, "0.25"),
    (Fraction(3), 2, "3.00"),
    (Fraction(1, 4), 1, "≈0.2"),
    (7, 0, "7"),
]
PERCENTS = [
    ((0, 5), "0 %"),
    ((5, 5), "100 %"),
    ((1, 3), "33 %"),
    ((1, 40), "2.5 %"),
    ((1, 1000), "0.1 %"),
    ((1, 1001), "< 0.1 %"),
    ((999, 1000), "> 99 %"),
    ((705, 570), "124 %"),
    ((3, 0), ""),
    ((3, -3), ""),
    ((1000000, 1), "100,000,000 %"),
]


class Numbers(unittest.TestCase):
    """How numbers are printed."""

    def test_decimals(self) -> None:
        for number, words in DECIMALS:
            self.assertEqual(numbers.decimal(number), words)
        for number, places, words in PLACED:
            self.assertEqual(numbers.decimal(number, places), words)

    def test_exact_values(self) -> None:
        self.assertEqual(numbers.ratio(3), "")
        for number, words in ((Fraction(31, 2), "31/2"), (Fraction(-31, 2), "−31/2")):
            self.assertEqual(numbers.ratio(number), words)

    def test_percents(self) -> None:
        for pair, words in PERCENTS:
            self.assertEqual(numbers.percent(*pair), words, pair)

    def test_counts(self) -> None:
        for number, one, words in (
            (0, "unit", "0 units"),
            (1, "round", "1 round"),
            (5000, "branch step", "5,000 branch steps"),
        ):
            self.assertEqual(numbers.plural(number, one), words)
        self.assertEqual([numbers.signed(number) for number in (-2, 0, 3)], ["−2", "", "+3"])
        self.assertEqual([numbers.unless_zero(number) for number in (-2, 0)], ["−2", ""])


if __name__ == "__main__":
    unittest.main()
