"""What each seller gets, next to its reserve, in words; expected words are reckoned by hand."""
import unittest

from support import Page, opened, page_of, sample

AIRPORT = sample("airport-slots.session")
HEADING = "What sellers get, next to what they asked"


def sentences(page: Page) -> list[str]:
    """The sentences of the sellers."""
    return [each.text for part in page.root.all("div", "sellers") for each in part.all("p")]


class Sellers(unittest.TestCase):
    """Prices and reserves of those that sell."""

    def test_above_its_reserve(self) -> None:
        # The seller's value is -15 throughout; round 1 begins with a price of 14.
        page = page_of(sample("two-settlements.session"), "--unit", "k€")
        self.assertEqual(
            sentences(page),
            [
                "s receives 15.5 (31/2) for A; it asked at least 15, so that is 0.5 (1/2) above "
                "its reserve. At the prices of round 1 that comes to 14."
            ],
        )
        reserve = "reserve: what a seller asked at least, by its lower values, in k€"
        self.assertIn(reserve, page.root.seen())

    def test_the_airport(self) -> None:
        # Prices in halves, as round 3 began: 298 and 351 and 433 / 2 and 282 and 242 for ten slots.
        first, second = sentences(page_of(AIRPORT))
        self.assertEqual(
            first,
            "Airport-Coordination receives 2,168.25 (8673/4) for 2 dep-0630 + 2 dep-0700 + "
            "dep-0730 + 2 arr-1730 + 2 arr-1830; it asked at least 1,062, so that is 1,106.25 "
            "(4425/4) above its reserve. At the prices of round 3 that comes to 1,389.5 (2779/2).",
        )
        self.assertEqual(
            second,
            "Charter-Sud receives 151 for arr-0830; it asked at least 151, so that is just its "
            "reserve. At the prices of round 3 that comes to 118.",
        )

    def test_who_buys_too_has_one_price(self) -> None:
        words = page_of(AIRPORT).root.seen()
        swaps = "Caledonian-Express, Transcontinental-Long-Haul-Lines"
        self.assertIn(f"with one price for what they sell and buy: {swaps}", words)
        words = page_of(sample("two-settlements.session")).root.seen()
        self.assertNotIn("with one price", words)

    def test_to_be_rid_of_it(self) -> None:
        journal = sample("two-settlements.session").replace("sell 0 1 -15 -15", "sell 0 1 8 8")
        for payment, begins in (
            (
                "9 9/1 -1/1",
                "s receives 1 for A; it would have paid up to 8 to be rid of it, so that is 9 "
                "better than its reserve.",
            ),
            (
                "5 5/1 3/1",
                "s pays 3 to be rid of A; it would have paid up to 8 to be rid of it, so that is 5 "
                "better than its reserve.",
            ),
            (
                "0 0/1 10/1",
                "s pays 10 to be rid of A; it would have paid up to 8 to be rid of it, so that is "
                "2 worse than its reserve.",
            ),
        ):
            changed = journal.replace("payment s 1 1/2 -31/2", f"payment s {payment}")
            self.assertTrue(sentences(page_of(changed))[0].startswith(begins), begins)

    def test_below_its_reserve(self) -> None:
        # No lawful journal says so, and a page retells what it is given.
        changed = sample("two-settlements.session").replace("s 1 1/2 -31/2", "s 1 1/2 -13/1")
        self.assertIn("so that is 2 below its reserve", sentences(page_of(changed))[0])

    def test_no_rounds_have_no_prices(self) -> None:
        lines = sample("two-settlements.session").splitlines()
        first, last = lines.index("settle 0"), lines.index("settle 1")
        lines[last] = "settle 0"
        journal = "\n".join(lines[:first] + lines[last:]) + "\n"
        journal = journal.replace("node buy 0 1 10 20", "node buy 0 1 16 18")
        says = sentences(page_of(journal))
        self.assertEqual(len(says), 1)
        self.assertTrue(says[0].endswith("above its reserve."), says)

    def test_who_has_none(self) -> None:
        self.assertEqual(sentences(page_of(opened(AIRPORT, 2))), [])
        alone = page_of(AIRPORT, "--bidder", "Airport-Coordination")
        self.assertEqual((sentences(alone), HEADING in alone.root.text), ([], False))


if __name__ == "__main__":
    unittest.main()
