"""The numbers of each sample, found again in its page.

What is expected is reckoned here from the lines of the journal, without the page's own reader.
"""
import hashlib
import unittest
from fractions import Fraction

from support import SAMPLES, Page, page_of, sample

SIGNS = {"buy": 1, "sell": -1}


def minus(number: int) -> str:
    """A whole number as it is printed."""
    return f"{number:,}".replace("-", "\u2212")


def value_of(words: str) -> Fraction:
    """The number that a printed decimal is."""
    return Fraction(words.replace("\u2212", "-").replace(",", ""))


class Told:
    """What the lines of a journal say."""

    def __init__(self, journal: str) -> None:
        self.lines = [line.split() for line in journal.splitlines()]
        self.goods = [line[1] for line in self.lines if line[0] in ("good", "exact")]
        self.bidders = [line[1] for line in self.lines if line[0] == "bidder"]
        self.nodes: dict[str, list[list[str]]] = {name: [] for name in self.bidders}
        name = ""
        for line in self.lines:
            if line[0] == "bidder":
                name = line[1]
            if line[0] == "node":
                self.nodes[name].append(line[1:])
        self.lows = {name: [int(node[-2]) for node in self.nodes[name]] for name in self.bidders}
        for place, line in enumerate(self.lines):
            if line[0] == "submit" and self.lines[place + 1] == ["verdict", "accepted"]:
                self.lows[line[1]] = list(map(int, line[3 : 3 + int(line[2])]))
        at = max(
            place
            for place, line in enumerate(self.lines)
            if line[0] in ("final", "assign", "spent")
        )
        if self.rest("final"):
            at = max(place for place, line in enumerate(self.lines) if line[0] == "final")
        sets = [line[1] for line in self.lines[at + 1 : at + 1 + len(self.bidders)]]
        self.sets = dict(zip(self.bidders, sets))

    def rest(self, word: str) -> list[list[str]]:
        """The fields of all records of a word."""
        return [line[1:] for line in self.lines if line[0] == word]

    def units(self, name: str) -> list[int]:
        """What a bidder buys of each good, less what it sells."""
        units = [0] * len(self.goods)
        for node, bit in zip(self.nodes[name], self.sets[name]):
            if bit == "1" and node[0] in SIGNS:
                units[int(node[1])] += SIGNS[node[0]] * int(node[2])
        return units

    def worth(self, name: str) -> int:
        """The lower value of a bidder's set."""
        return sum(low for low, bit in zip(self.lows[name], self.sets[name]) if bit == "1")

    def loose(self) -> dict[str, list[int]]:
        """Upper less lower values at each settlement, of each bidder and of all."""
        now = {
            name: sum(int(node[-1]) - int(node[-2]) for node in self.nodes[name])
            for name in self.bidders
        }
        loose: dict[str, list[int]] = {name: [] for name in [*self.bidders, "all"]}
        for line, behind in zip(self.lines, [*self.lines[1:], [""]]):
            if line[0] == "submit" and behind == ["verdict", "accepted"]:
                values = list(map(int, line[3:]))
                middle = int(line[2])
                now[line[1]] = sum(values[middle + 1 :]) - sum(values[:middle])
            if line[0] == "settle":
                for name, each in {**now, "all": sum(now.values())}.items():
                    loose[name].append(each)
        return loose

    def logs(self) -> list[tuple[int, int, int, int]]:
        """Branches, leaves, dead sides and bytes of each log."""
        logs: list[list[int]] = []
        inside = False
        for line in self.lines:
            if line[0] in ("branch", "near", "leaf", "dead"):
                if not inside:
                    logs.append([0, 0, 0, 0])
                logs[-1][{"branch": 0, "dead": 2}.get(line[0], 1)] += 1
                logs[-1][3] += len(" ".join(line)) + 1
            inside = line[0] in ("branch", "near", "leaf", "dead")
        return [(log[0], log[1], log[2], log[3]) for log in logs]


class Samples(unittest.TestCase):
    """Each sample's page has its numbers."""

    pages: list[tuple[str, Told, Page, str]]

    @classmethod
    def setUpClass(cls) -> None:
        texts = [(file.name, file.read_text()) for file in SAMPLES]
        cls.pages = [(name, Told(text), page_of(text), text) for name, text in texts]

    def test_matrix(self) -> None:
        for name, told, page, _ in self.pages:
            with self.subTest(name):
                rows = page.table("Who trades what")
                for bidder, cells in zip(told.bidders, rows[1:]):
                    self.assertEqual(cells[0], bidder)
                    shown = [
                        int(value_of(cell.strip("+·") or "0"))
                        for cell in cells[1 : len(told.goods) + 1]
                    ]
                    self.assertEqual(shown, told.units(bidder))
                    self.assertEqual(cells[len(told.goods) + 1], minus(told.worth(bidder)))
                bought = [
                    sum(max(0, told.units(each)[good]) for each in told.bidders)
                    for good in range(len(told.goods))
                ]
                sums = rows[len(told.bidders) + 1]
                self.assertEqual(
                    [int(cell or "0") for cell in sums[1 : len(told.goods) + 1]], bought
                )
                self.assertEqual(
                    sums[len(told.goods) + 1], minus(sum(map(told.worth, told.bidders)))
                )
                self.assertNotIn("don’t add up", page.root.seen())

    def test_payments(self) -> None:
        for name, told, page, _ in self.pages:
            with self.subTest(name):
                rows = page.table("What each pays")
                payments = {who: numbers for who, *numbers in told.rest("payment")}
                self.assertEqual(bool(rows), bool(payments))
                if not payments:
                    continue
                listed = rows[1 : len(payments) + 1]
                self.assertEqual(sorted(row[0] for row in listed), sorted(payments))
                paid = [Fraction(payments[row[0]][2]) for row in listed]
                self.assertEqual(paid, sorted(paid, reverse=True))
                for who, worth, adds, keeps, pays, bar in listed:
                    vickrey, discount, payment = payments[who]
                    self.assertEqual(worth, minus(told.worth(who)))
                    self.assertEqual(adds, minus(int(vickrey)) if vickrey != "0" else "")
                    self.assertEqual(bar, adds)
                    self.amount(keeps or "0", Fraction(discount))
                    self.amount(pays, Fraction(payment))
                cut, surplus = map(Fraction, told.rest("threshold")[0])
                self.assertIn(
                    f"({cut})" if cut.denominator > 1 else f"cut at {minus(int(cut))}", rows[0][-1]
                )
                sums = rows[len(payments) + 1 :]
                self.assertEqual([row[0] for row in sums], ["all: the surplus", "paid", "received"])
                self.assertEqual(sums[0][1], minus(sum(map(told.worth, told.bidders))))
                self.amount(sums[0][4], surplus)
                self.amount(sums[1][4], sum((each for each in paid if each > 0), Fraction(0)))
                self.amount(sums[2][4], -sum((each for each in paid if each < 0), Fraction(0)))
                self.assertEqual(
                    page.facts()["surplus of the payments"][0], str(Fraction(surplus))
                )

    def amount(self, shown: str, number: Fraction) -> None:
        """Tests a cell: a decimal that is exact, or one that is rounded with the fraction below."""
        about, _, rest = shown.rpartition("≈")
        self.assertEqual(about, "")
        if "≈" not in shown:
            self.assertEqual(value_of(rest), number)
            return
        exact = str(number).replace("-", "\u2212")
        self.assertTrue(rest.endswith(exact), shown)
        self.assertLessEqual(
            abs(value_of(rest.removesuffix(exact)) - number), Fraction(1, 2000)
        )

    def test_facts(self) -> None:
        for name, told, page, journal in self.pages:
            with self.subTest(name):
                facts = page.facts()
                total = sum(map(told.worth, told.bidders))
                self.assertEqual(facts["total value, at least"][0], minus(total))
                regrets = told.rest("regret")
                if "assign" in journal.splitlines()[0]:
                    self.assertNotIn("could be missed, at most", facts)
                else:
                    # A journal that is spent at its first search states no regret at all.
                    shown = minus(int(regrets[-1][0])) if regrets else "unknown"
                    self.assertEqual(facts["could be missed, at most"][0], shown)
                self.assertEqual(facts["checker’s answer"][0], "not checked")
                self.assertNotIn("proven best", page.root.seen())

    def test_course(self) -> None:
        for name, told, page, _ in self.pages:
            with self.subTest(name):
                rows = page.table("What was sure")[1:]
                if len(told.rest("regret")) > 1:
                    self.assertEqual(
                        [[row[1], row[2]] for row in rows],
                        [
                            [minus(int(final)), minus(int(regret))]
                            for (final,), (regret,) in zip(told.rest("final"), told.rest("regret"))
                        ],
                    )
                else:
                    self.assertEqual(rows, [])
                self.prices(told, page)

    def prices(self, told: Told, page: Page) -> None:
        """Tests the tables of prices: each with its change against the round before."""
        stated = [
            [Fraction(int(number), int(den)) for number in numbers]
            for den, *numbers in told.rest("prices")
        ]
        tables = page.table("Prices of one unit") + page.table("Prices of more")
        heads = ["", *(f"round {number + 1}" for number in range(len(stated)))]
        rows = [row for row in tables if row != heads]
        self.assertEqual([row[0] for row in rows], told.goods if stated else [])
        for good, row in enumerate(rows):
            column = [prices[good] for prices in stated]
            for place, shown in enumerate(row[1:]):
                before = column[place - 1] if place else column[place]
                sign = "▲ " if column[place] > before else "▼ " if column[place] < before else ""
                self.assertTrue(shown.startswith(sign))
                shown = shown.removeprefix(sign)
                if place < len(column) - 1 and "≈" in shown:
                    gap = abs(value_of(shown.strip("≈")) - column[place])
                    self.assertTrue(0 < gap <= Fraction(1, 2000))
                else:
                    self.amount(shown, column[place])

    def test_bids(self) -> None:
        for name, told, page, _ in self.pages:
            with self.subTest(name):
                verdicts = [verdict[0] for verdict in told.rest("verdict")]
                words = page.root.seen() if verdicts else "●\xa00 accepted ×\xa00 refused"
                self.assertIn(f'●\xa0{verdicts.count("accepted")} accepted', words)
                refused = len(verdicts) - verdicts.count("accepted")
                self.assertIn(f"×\xa0{refused} refused", words)
                whys = [
                    entry for listed in page.root.all("dl", "why") for entry in listed.all("dt")
                ]
                counts = [entry.text.split()[1] for entry in whys]
                different = sorted(set(verdicts) - {"accepted"})
                self.assertEqual(counts, [str(verdicts.count(verdict)) for verdict in different])

    def test_uncertainty(self) -> None:
        for name, told, page, _ in self.pages:
            with self.subTest(name):
                rows = page.table("Bids, and how the uncertainty shrank")[1:]
                for bidder, cells in zip(told.bidders, rows):
                    opening = sum(int(node[-1]) - int(node[-2]) for node in told.nodes[bidder])
                    self.assertEqual((cells[0], cells[1]), (bidder, minus(opening)))

    def test_how_much_was_told(self) -> None:
        for name, told, page, _ in self.pages:
            with self.subTest(name):
                rows = page.table("How much was told")
                settlements = told.rest("settle")
                self.assertEqual(bool(rows), len(settlements) > 1)
                if not rows:
                    continue
                loose = told.loose()
                for who, (head, *cells) in zip([*told.bidders, "all"], rows[1:], strict=True):
                    self.assertEqual((head, len(cells)), (who, len(settlements) - 1))
                    first, *later = loose[who]
                    for now, cell in zip(later, cells):
                        if not first:
                            self.assertEqual(cell, "exact before")
                        elif cell[0] not in "<>":
                            share = Fraction(100 * (first - now), first)
                            self.assertLessEqual(abs(share - value_of(cell[:-2])), Fraction(1, 2))

    def test_a_simulated_session(self) -> None:
        page = page_of(sample("simulated.session"))
        rows = page.table("How much was told")
        # the seller has told all before, and the buyer's 16 to 17 is a tenth of 10 to 20
        self.assertEqual(rows[1:], [["s", "exact before"], ["b", "90 %"], ["all", "90 %"]])
        self.assertEqual(page.table("Prices of one unit")[1:], [["A", "14"]])
        found = [cells[:4] for cells in page.table("What was sure")[1:]]
        self.assertEqual(found, [["0", "0", "5", ""], ["1", "1", "0", "0 %"]])

    def test_trees(self) -> None:
        for name, told, page, _ in self.pages:
            with self.subTest(name):
                cards = page.root.all("article")
                self.assertEqual([card.all("h3")[0].text for card in cards], told.bidders)
                for bidder, card in zip(told.bidders, cards):
                    filled = [
                        int(word.text) for word in card.all("text", "id") if "in" in word.classes
                    ]
                    shown = [int(word.text) for word in card.all("text", "id")]
                    taken = [number for number, bit in enumerate(told.sets[bidder]) if bit == "1"]
                    self.assertEqual(filled, [number for number in taken if number in shown])
                    hidden = set(range(len(told.nodes[bidder]))) - set(shown)
                    for number in hidden:
                        kind, *_, low, high = told.nodes[bidder][number]
                        self.assertIn(kind, SIGNS)
                        self.assertEqual((low, high, told.lows[bidder][number]), ("0", "0", 0))
                    self.assertNotRegex(card.text, r"\((\d+)–\1\)")
                    self.assertEqual(len(card.all("svg")), 1)
                    self.assertEqual(len(card.all("path", "link")), len(shown) - 1)

    def test_logs(self) -> None:
        for name, told, page, _ in self.pages:
            with self.subTest(name):
                rows = [
                    row[1:5]
                    for row in page.table("Searches and")
                    + page.table("More")
                    + page.table("The last")
                    if row[0] != "search"
                ]
                logs = [[minus(count) if count else "" for count in log] for log in told.logs()]
                self.assertEqual(rows, logs)

    def test_footer(self) -> None:
        for name, told, page, journal in self.pages:
            with self.subTest(name):
                words = page.root.all("footer")[0].text
                self.assertIn(hashlib.sha256(journal.encode()).hexdigest(), words)
                self.assertIn(f"{len(told.lines)} lines", words)
                self.assertIn(f"version {told.lines[0][1]}", words)


class ByHand(unittest.TestCase):
    """A session of two settlements, reckoned by hand.

    The seller's lower value is -15, the buyer's 16 after its bid: the trade is worth 1. Without
    either nothing is traded, so each adds 1; the cut of 1/2 leaves each a discount of 1/2. The
    seller receives 15 1/2, the buyer pays it.
    """

    def page(self) -> Page:
        """Its page, with the checker's yes."""
        return page_of(sample("two-settlements.session"), "--checked", "yes 0 0/1", "--unit", "k€")

    def test_glance(self) -> None:
        facts = self.page().facts()
        self.assertEqual(facts["state"], ("Closed", "settlement 1"))
        self.assertEqual(facts["total value, at least"], ("1 k€", "at lower values, proven best"))
        self.assertEqual(facts["could be missed, at most"], ("0 k€", "the regret"))
        self.assertEqual(facts["surplus of the payments"], ("0 k€", "the total less the discounts"))
        self.assertEqual(facts["checker’s answer"][0], "yes")

    def test_matrix(self) -> None:
        rows = self.page().table("Who trades what")
        self.assertEqual(rows[1:], [["s", "−1", "−15"], ["b", "+1", "16"], ["traded", "1", "1"]])

    def test_payments(self) -> None:
        page = self.page()
        self.assertEqual(
            page.table("What each pays"),
            [
                ["", "worth", "adds", "−\u00a0keeps", "=\u00a0pays", "cut at 0.5 (1/2)"],
                ["b", "16", "1", "0.5", "15.5", "1"],
                ["s", "−15", "1", "0.5", "−15.5", "1"],
                ["all: the surplus", "1", "", "1", "0", ""],
                ["paid", "", "", "", "15.5", ""],
                ["received", "", "", "", "15.5", ""],
            ],
        )
        small = [part.text for part in page.root.all("div", "narrow")][:2]
        self.assertEqual(
            small,
            [
                "buy A; worth 16, adds 1, keeps 0.5 (1/2)",
                "sell A; worth −15, adds 1, keeps 0.5 (1/2)",
            ],
        )
        self.assertNotIn("a discount of 0", page.root.seen())
        # Of the airport's seven that trade the cut of 194.75 is above what three add.
        words = page_of(sample("airport-slots.session")).root.seen()
        nothing = "3 of the 7 that trade keep nothing (a discount of 0): they pay the whole lower"
        self.assertIn(nothing, words)
        paid = ("payment b 1 1/2 31/2", "payment b 0 0/1 16/1")
        one = page_of(sample("two-settlements.session").replace(*paid)).root.seen()
        nothing = "1 of the 2 that trade keeps nothing (a discount of 0): it pays the whole lower"
        self.assertIn(nothing, one)

    def test_course(self) -> None:
        page = self.page()
        self.assertEqual(
            [row[:4] for row in page.table("What was sure")[1:]],
            [["0", "0", "5", ""], ["1", "1", "0", "0 %"]],
        )
        # The buyer's interval was 10..20 and is 16..18; the seller's was a point from the start.
        rows = page.table("Bids")
        self.assertEqual(rows[1], ["s", "0", "0".replace("0", ""), "0", ""])
        self.assertEqual(rows[2][:2] + rows[2][3:], ["b", "10", "2", "20 %"])

    def test_words(self) -> None:
        words = self.page().root.seen()
        for part in (
            "receives 15.5 (31/2)",
            "pays 15.5 (31/2)",
            "Its final set is worth 16 at lower values. It adds 1 to the total (without it 0 of 1 can "
            "be reached); the cut is 0.5 (1/2), so it keeps 0.5 (1/2).",
            "round 1: b at node 0",
            "round 1: zz",
            "must fall by 2 or vanish",
            "closes at 0 or less",
        ):
            self.assertIn(part, words)


if __name__ == "__main__":
    unittest.main()
