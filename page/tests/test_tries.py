"""Who was refused in the last round that had refusals, with its last try."""
import io
import unittest

from support import SAMPLES, Page, opened, page_of, sample

from ice_page.journal import Lines, read_journal

AIRPORT = sample("airport-slots.session")
ROUND_3 = AIRPORT.index("submit ", AIRPORT.index("settle 2\n")), AIRPORT.index("settle 3\n")


def tries(page: Page) -> list[list[str]]:
    """The rows of the table, without its heads."""
    return page.table("Who was refused")[1:]


class Tries(unittest.TestCase):
    """The last refused try of each, as its journal has it."""

    def test_a_round_by_hand(self) -> None:
        # The buyer's seven bids: 40, 41, 46, 42, 43, accepted, and 44 for 16..17 behind that.
        page = page_of(sample("two-settlements.session"))
        self.assertEqual(
            tries(page),
            [
                ["b", "0: 16..17", "× came again; 6 refused and 1 accepted in this round"],
                ["zz", "", "× unknown name; 1 refused and 0 accepted in this round"],
            ],
        )
        heads = [head.text for head in page.root.all("h3")]
        self.assertIn("Who was refused in round 1, and its last such try", heads)

    def test_the_last_round(self) -> None:
        rows = tries(page_of(AIRPORT))
        names = ["Airport-Coordination", "Northern-Airways", "Polar-Cargo", "Charter-Sud"]
        self.assertEqual([row[0] for row in rows], names)
        self.assertEqual(
            rows[1:],
            [
                [
                    "Northern-Airways",
                    "1: 525..528 4: 595..597 7: 598..599 10: 543..545",
                    "× tightened too little; 2 refused and 1 accepted in this round",
                ],
                [
                    "Polar-Cargo",
                    "1: −61..−54 2: 143..157 3: 65..78",
                    "× tightened too little; 2 refused and 1 accepted in this round",
                ],
                [
                    "Charter-Sud",
                    "1: −155..−138 2: 22..43 3: −156..−145 4: 190..220",
                    "× left the best set open; 1 refused and 1 accepted in this round",
                ],
            ],
        )

    def test_values_as_before_are_left_out(self) -> None:
        # Its accepted bid of round 2 was -68..-50, 124..158 and 64..94.
        before = "submit Polar-Cargo 4 0 -61 143 65 4 0 -54 157 78\nverdict 43\n"
        same = "submit Polar-Cargo 4 0 -68 124 64 4 0 -50 158 94\nverdict 43\n"
        one = "submit Polar-Cargo 4 0 -68 124 64 4 0 -50 158 90\nverdict 43\n"
        for bid, shown in ((same, "none"), (one, "3: 64..90")):
            rows = {row[0]: row[1] for row in tries(page_of(AIRPORT.replace(before, bid)))}
            self.assertEqual(rows["Polar-Cargo"], shown)

    def test_an_earlier_round(self) -> None:
        # Without any bid in round 3 the last refusals are those of round 2.
        rows = tries(page_of(AIRPORT[: ROUND_3[0]] + AIRPORT[ROUND_3[1] :]))
        self.assertEqual(
            [row[0] for row in rows],
            [
                "Northern-Airways",
                "Caledonian-Express",
                "Meridian",
                "Alpine-Connect",
                "Polar-Cargo",
                "Northern-Airway",
            ],
        )
        shown = {row[0]: row[1:] for row in rows}
        self.assertEqual(shown["Alpine-Connect"][0], "8 lower and 9 upper for 9 nodes")
        self.assertTrue(shown["Alpine-Connect"][1].startswith("× wrong count; 2 refused"))
        crossed = "× crossed bounds at node 3; 2 refused and 1 accepted in this round"
        self.assertEqual(shown["Caledonian-Express"][1], crossed)

    def test_a_name_that_nobody_has_is_the_last_refusal(self) -> None:
        # No try of an earlier round is shown beside it.
        bid = "submit Meridiam 1 0 1 0\nverdict 45\n"
        rows = tries(page_of(AIRPORT[: ROUND_3[0]] + bid + AIRPORT[ROUND_3[1] :]))
        self.assertEqual(
            rows, [["Meridiam", "", "× unknown name; 1 refused and 0 accepted in this round"]]
        )

    def test_many_values(self) -> None:
        # Of thirteen that are other than before twelve stand there.
        bid = "submit Northern-Airways 13 " + " ".join(map(str, range(1, 14)))
        bid += " 13 " + " ".join(map(str, range(1, 14))) + "\nverdict 42\n"
        rows = tries(page_of(AIRPORT[: ROUND_3[0]] + bid + AIRPORT[ROUND_3[1] :]))
        self.assertTrue(rows[0][1].startswith("0: 1 1: 2 "))
        self.assertTrue(rows[0][1].endswith(" 11: 12 and 1 more"), rows)

    def test_tries_of_earlier_rounds_are_not_kept(self) -> None:
        journal = read_journal(Lines(io.BytesIO(AIRPORT.encode())))
        self.assertEqual([len(each.tries) for each in journal.settlements], [0, 0, 4, 0])

    def test_who_has_none(self) -> None:
        self.assertEqual(tries(page_of(opened(AIRPORT, 0))), [])
        for name in ("Meridian", "Polar-Cargo"):
            self.assertEqual(tries(page_of(AIRPORT, "--bidder", name)), [])
        for file in SAMPLES:
            journal = file.read_text()
            refusals = "verdict 4" in journal
            self.assertEqual(bool(tries(page_of(journal))), refusals, file.name)


if __name__ == "__main__":
    unittest.main()
