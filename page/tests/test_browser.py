"""Pages in a real Chromium: on a phone, on a screen, in light and dark, and on paper."""
import unittest
from concurrent.futures import ThreadPoolExecutor
from typing import Any

import browser
from support import SAMPLES, opened, run, sample
from test_access import LEAST_CONTRAST, contrast, luminance

AIRPORT = sample("airport-slots.session")
PHONE, SCREEN = 390, 1160


def pages() -> dict[str, str]:
    """Pages of all samples, and of bidders of a closed and of an open session."""
    made = {file.name: run(file.read_text())[1] for file in SAMPLES}
    journals = (("closed", AIRPORT), ("open", opened(AIRPORT, 2)))
    for name in ("Meridian", "Northern-Airways", "Airport-Coordination", "Polar-Cargo"):
        for state, journal in journals:
            made[f"{name}, {state}"] = run(journal, "--bidder", name)[1]
    made["open"] = run(opened(AIRPORT, 2), "--date", "29 November", "--made-by", "ice 0.1")[1]
    return made


@browser.NEEDS
class OnScreens(unittest.TestCase):
    """What a screen shows."""

    pages: dict[str, str]
    found: dict[tuple[int, bool], dict[str, dict[str, Any]]]

    @classmethod
    def setUpClass(cls) -> None:
        cls.pages = pages()
        few = ("airport-slots.session", "Meridian, open", "hall.journal", "ring.spent.session")
        dark = {name: cls.pages[name] for name in few}
        ways = {(PHONE, False): cls.pages, (SCREEN, False): cls.pages, (SCREEN, True): dark}

        def measured(way: tuple[int, bool]) -> dict[str, dict[str, Any]]:
            shown = ways[way]
            return dict(zip(shown, browser.measured(list(shown.values()), *way)))

        with ThreadPoolExecutor(3) as pool:
            cls.found = dict(zip(ways, pool.map(measured, ways)))

    def test_what_is_outside_is_found(self) -> None:
        # A page that is too wide in two ways, so that the tests below can fail.
        page = run(AIRPORT)[1]
        broad = page.replace("<footer", '<p class="lead" style="width:500px">so broad</p><footer')
        frame = '<div style="overflow-x:auto"><div style="width:380px">x</div></div>'
        long = page.replace("<footer", f"{frame}<footer")
        first, second = browser.measured([broad, long], PHONE)
        self.assertEqual((first["outside"], first["scrolls"]), (["P.lead: so broad"], []))
        self.assertEqual((second["outside"], len(second["scrolls"])), (["DIV.: x"], 1))

    def test_nothing_is_outside_a_phone(self) -> None:
        for name, found in self.found[PHONE, False].items():
            with self.subTest(name):
                self.assertEqual(found["width"], PHONE)
                self.assertEqual((found["outside"], found["scrolls"]), ([], []))
                self.assertGreater(len(found["words"]), 20)

    def test_nothing_is_outside_a_screen(self) -> None:
        for name, found in self.found[SCREEN, False].items():
            with self.subTest(name):
                self.assertEqual((found["outside"], found["scrolls"]), ([], []))

    def test_payments_and_trades_on_a_phone(self) -> None:
        small = self.found[PHONE, False]["airport-slots.session"]["words"]
        large = self.found[SCREEN, False]["airport-slots.session"]["words"]
        trade = "buy dep-0630 + dep-0700 + dep-0730; worth 792, adds 270, keeps 75.25 (301/4)"
        for words, shown in ((small, True), (large, False)):
            self.assertIn("716.75", words)
            self.assertEqual(trade in words, shown)
            self.assertEqual("+2" in words, not shown)
            self.assertEqual("● 1 buy dep-0630: pays up to 300 (opening: 190..330)" in words, shown)

    def test_prices_on_a_phone(self) -> None:
        small = self.found[PHONE, False]["Meridian, open"]["words"]
        large = self.found[SCREEN, False]["Meridian, open"]["words"]
        self.assertEqual([f"round {number}" in small for number in (1, 2, 3)], [False, True, True])
        self.assertEqual([f"round {number}" in large for number in (1, 2, 3)], [True] * 3)
        note = "earlier prices stand on a wider screen"
        self.assertEqual((note in small, note in large), (True, False))

    def test_light_and_dark(self) -> None:
        for (width, dark), found in self.found.items():
            for name, page in found.items():
                papers = [luminance(behind[:3]) for _, behind in page["colours"]]
                self.assertTrue(all((paper < 0.2) == dark for paper in papers), name)
                for colour, behind in page["colours"]:
                    self.assertGreaterEqual(
                        contrast(colour[:3], behind[:3]), LEAST_CONTRAST, (name, width, dark)
                    )


@browser.NEEDS
class OnPaper(unittest.TestCase):
    """What a printer does."""

    def test_two_sheets_for_a_bidder(self) -> None:
        journals = (AIRPORT, opened(AIRPORT, 2))
        names = ("Northern-Airways", "Airport-Coordination")
        made = [run(journal, "--bidder", name)[1] for journal in journals for name in names]
        with ThreadPoolExecutor(3) as pool:
            self.assertEqual(list(pool.map(browser.sheets, made)), [2] * len(made))

    def test_sheets_are_counted(self) -> None:
        # The page for all is longer than any for one.
        self.assertGreater(browser.sheets(run(AIRPORT)[1]), 4)


if __name__ == "__main__":
    unittest.main()
