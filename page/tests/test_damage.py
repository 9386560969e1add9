"""Damaged journals: status 2, a message that names a line, and never a crash."""
import random
import re
import unittest
from collections import Counter

from support import SAMPLES, opened, run, sample

LINE = r"some\.journal: line [0-9]+: ."


class Damage(unittest.TestCase):
    """What is no journal has no page."""

    def refused(self, journal: str | bytes, line: int | None = None) -> str:
        """Tests that there is no page, and that the line is named."""
        status, page, errors = run(journal)
        self.assertEqual((status, page), (2, ""))
        self.assertRegex(errors, LINE if line is None else rf"some\.journal: line {line}: .")
        return errors

    def test_cut_at_each_line(self) -> None:
        for file in SAMPLES:
            if file.stat().st_size > 3000:
                continue
            lines = file.read_text().splitlines(keepends=True)
            for count in range(len(lines)):
                with self.subTest(file.name, lines=count):
                    errors = self.refused("".join(lines[:count]), count + 1)
                    self.assertIn("the file ends", errors)

    def test_cut_inside_a_line(self) -> None:
        for file in SAMPLES:
            data = file.read_bytes()
            self.assertIn("ends without a newline", self.refused(data[:-1], data.count(b"\n")))

    def test_a_line_more(self) -> None:
        for file in SAMPLES:
            data = file.read_text()
            errors = self.refused(data + "end closed\n", data.count("\n") + 1)
            self.assertIn("stands after the end", errors)

    def test_each_line_left_out(self) -> None:
        # A log without a branch or with another leaf may still be a log; a verdict's rows, bids
        # with their verdicts and multipliers aren't counted by the page.
        lines = sample("ring.session").splitlines(keepends=True)
        for place, line in enumerate(lines):
            with self.subTest(line):
                self.refused("".join(lines[:place] + lines[place + 1 :]))

    def test_one_line_changed(self) -> None:
        lines = sample("two-settlements.session").splitlines()
        changes = {
            1: ["ice 3 session", "ICE 2 session", "ice 2 assign"],
            2: ["settings 101 0 100 2 5 200"],
            4: ["bidder s 1 1", "bidder s -1", "bidder s"],
            5: ["node sell 1 1 0 0", "node pick 0 1 0 0"],
            7: ["node choose 0 1 1 10 20", "node buy 0 0 10 20"],
            8: ["settle 1", "settle"],
            9: ["rival 0", "final 0/1", "final 400000000000001"],
            10: ["set 11", "set", "set x"],
            12: ["leaf 640", "branch 0 0", "near 1 0 640 "],
            17: ["regret -1", "regret 0 0"],
            22: ["prices 1 14 14", "prices 0 14", "prices 1"],
            23: ["accuracy 0"],
            24: ["row 1 1 1"],
            26: ["submit b 2 5 1 18", "submit", "verdict accepted"],
            27: ["verdict 47", "verdict 40"],
            39: ["submit b 0 0", "submit c 1 16 1 18"],
            61: ["payment b 1 1/2 -31/2", "payment s 1 1/2 31/2/1"],
            63: ["end open", "end"],
        }
        for number, others in changes.items():
            for other in others:
                with self.subTest(other, line=number):
                    changed = "\n".join([*lines[: number - 1], other, *lines[number:]]) + "\n"
                    self.refused(changed)

    def test_round_file_of_another_round(self) -> None:
        for name, other in (
            ("refused.session", "refused 3 3 bids.0.lo.0"),
            ("unread.session", "unread 3"),
        ):
            lines = sample(name).splitlines()
            self.refused("\n".join([*lines[:-1], other]) + "\n", len(lines))

    def test_other_line_endings_and_bytes(self) -> None:
        text = sample("two-settlements.session")
        self.refused(text.replace("\n", "\r\n"), 1)
        self.refused("\ufeff" + text, 1)
        self.refused(text.encode("utf-16"), 1)
        self.refused(text.replace("\n", "\n\n", 1), 2)
        self.refused(b"", 1)
        self.refused(b"\0" * 20000, 1)

    def test_one_number_changed_for_a_bidder(self) -> None:
        # What no session would say has a page all the same, or the line is named.
        draw = random.Random(5)
        journal = opened(sample("airport-slots.session"), 1)
        names = re.findall("^bidder ([^ ]+)", journal, re.M)
        statuses: Counter[int] = Counter()
        for _ in range(60):
            lines = [line.split(" ") for line in journal.splitlines()]
            words = draw.choice([words for words in lines if len(words) > 1 and words[0] != "near"])
            place = draw.randrange(1, len(words))
            if words[0] == "set":
                words[1] = "".join(draw.choice("01") for _ in words[1])
            elif words[place].lstrip("-").isdigit():
                words[place] = str(draw.choice([0, 1, 2, -7, 200, 10**9]))
            changed = "".join(" ".join(words) + "\n" for words in lines)
            status, page, errors = run(changed, "--bidder", draw.choice(names))
            self.assertEqual(bool(page), status == 0)
            self.assertTrue(page or re.search(LINE, errors), errors)
            statuses[status] += 1
        self.assertEqual(set(statuses), {0, 2})
        self.assertGreater(statuses[0], 15)

    def test_random_edits(self) -> None:
        draw = random.Random(12)
        samples = [file.read_bytes() for file in SAMPLES if file.stat().st_size < 3000]
        for _ in range(600):
            data = bytearray(draw.choice(samples))
            for _ in range(draw.choice([1, 1, 2, 8])):
                place = draw.randrange(len(data))
                way = draw.randrange(4)
                if way == 0:
                    data[place] = draw.choice(b"0123456789 -/\nabz")
                elif way == 1:
                    del data[place : place + draw.choice([1, 2, 30])]
                    data = data or bytearray(b"x")
                elif way == 2:
                    data[place:place] = bytes(
                        data[draw.randrange(len(data)) :][: draw.choice([1, 2, 30])]
                    )
                else:
                    data[place:place] = draw.choice(
                        [b"9" * 30, b" 0", b"\n", b"\xff", b"end spent\n"]
                    )
            status, page, errors = run(bytes(data))
            self.assertIn(status, (0, 2))
            self.assertEqual(bool(page), status == 0)
            if status:
                self.assertRegex(errors, LINE)


if __name__ == "__main__":
    unittest.main()
