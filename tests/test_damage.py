"""Damaged journals: cut after each byte, with lines doubled and swapped, with each number changed.

What is due was reckoned by hand of the session that closes at once, `files/sale.session`. Of other
journals a rule says what may come.
"""
import re
import tempfile
import unittest
from collections.abc import Iterator
from pathlib import Path

from harness.cases import shared, status_of
from harness.program import programs

SESSION = "sale.session"
YES = "yes 0 0/1"

# Of each number of a line, in turn: what `check` says where it is one more, and one less. A word
# alone is the rule that fails at this line, one with a number fails at that line, and 50 says that
# the line is then no record. The weight, the cap and the branches have no part in a session that
# closes at once; a multiplier that is one more or less leaves the floor of the bound as it was.
BOTH, ABOVE = ("payment", "payment"), ("payment", "50")
PAYMENT = [BOTH, BOTH, ABOVE, BOTH, ABOVE]
NUMBERS = {
    1: [("order 12", "50")],
    2: [("yes",) * 2, ("yes", "50"), ("yes",) * 2, ("yes",) * 2, ("yes",) * 2, ("yes",) * 2],
    4: [("yes", "exchange 5")],
    5: [
        ("exchange", "50"),
        ("exchange", "50"),
        ("exchange", "value 11"),
        ("yes", "exchange"),
    ],
    6: [("yes", "50")],
    7: [("exchange", "50"), ("excess 11", "50"), ("value 11", "value 11"), ("yes", "yes")],
    8: [("order", "50")],
    9: [("value 11", "value 11")],
    10: [("50", "excess 11")],
    11: [("50", "value 11")],
    12: [("yes", "yes")],
    13: [("value 15", "value 15")],
    14: [("50", "excess 15")],
    15: [("50", "value 15")],
    16: [("yes", "yes")],
    17: [("regret", "50")],
    18: [("order", "50"), ("value 20", "value 20")],
    19: [("fixing", "50")],
    20: [("excess", "50")],
    21: [("yes", "yes")],
    22: [("order", "order"), ("value 24", "value 24")],
    23: [("value 24", "50")],
    24: [("fixing", "50")],
    25: [("yes", "sign")],
    26: [("threshold",) * 2, ("threshold", "50"), ("threshold",) * 2, ("50", "50")],
    27: PAYMENT,
    28: PAYMENT,
}

# Where a line stands twice, what stands there again fails at the next line, by `order`; but a good
# is there already, and the third set of a group comes a line later.
DOUBLED = {3: "no 4 exchange", **{line: f"no {line + 2} order" for line in (10, 14, 19, 23)}}

# Where a line changes places with the next, it fails where the next one now stands, by `order`.
SWAPPED = {1: "refused 1 53 -", **{line: YES for line in (10, 14, 19, 23)}}


def number_changes() -> Iterator[tuple[int, str, str]]:
    """The lines of the session with a number changed, and what is then due."""
    for line, text in enumerate(shared(SESSION).splitlines(), 1):
        found = list(re.finditer(r"-?[0-9]+", text))
        dues = NUMBERS.get(line, [])
        assert len(found) == len(dues), f"line {line} has {len(found)} numbers"
        for number, pair in zip(found, dues):
            for step, due in zip((1, -1), pair):
                new = f"{text[:number.start()]}{int(number[0]) + step}{text[number.end():]}"
                yield line, new, answer(line, due)


def answer(line: int, due: str) -> str:
    """What `check` writes, by the short words of the table."""
    if due == "yes":
        return YES
    if due == "50":
        return f"refused 1 50 {line}"
    rule, _, at = due.partition(" ")
    return f"no {at or line} {rule}"


class Damage(unittest.TestCase):
    """What `check`, `replay` and `migrate` say of journals that were damaged."""

    def setUp(self) -> None:
        folder = tempfile.TemporaryDirectory()
        self.addCleanup(folder.cleanup)
        self.file = Path(folder.name, "journal")

    def answers(self, data: str | bytes, due: str, *words: str) -> None:
        """Tests what each build says of this journal; `check` where there are no other words."""
        self.file.write_bytes(data if isinstance(data, bytes) else data.encode())
        command, *rest = words or ("check",)
        for program in programs():
            with self.subTest(due, program=str(program)):
                ran = program.run([command, self.file, *rest])
                self.assertEqual(ran.output.decode(), f"{due}\n", repr(data[-80:]))
                self.assertEqual((ran.status, ran.errors), (status_of(due), b""))

    def test_cut_after_each_byte(self) -> None:
        for name in ("sale.assign", "sale.regret", SESSION, "rounds.session"):
            whole = shared(name).encode()
            self.answers(b"", "refused 1 53 -")
            for end in range(1, len(whole)):
                line = whole.count(b"\n", 0, end) + 1
                is_whole = whole[end - 1 : end] == b"\n"
                due = f"no {line} short" if is_whole else f"refused 1 51 {line}"
                self.answers(whole[:end], due)

    def test_cut_journals_are_neither_replayed_nor_migrated(self) -> None:
        whole = shared(SESSION).encode()
        ends = [place for place, byte in enumerate(whole[:-1], 1) if byte == 10]
        for line, end in enumerate(ends, 2):
            self.answers(whole[:end], f"no {line} short", "replay", "0")
            self.answers(whole[:end], f"no {line} short", "migrate")
            self.answers(whole[: end + 1], f"refused 1 51 {line}", "replay", "0")
            self.answers(whole[: end + 1], f"refused 1 51 {line}", "migrate")

    def test_each_line_doubled(self) -> None:
        lines = shared(SESSION).splitlines(keepends=True)
        for line in range(1, len(lines) + 1):
            damaged = "".join(lines[:line] + lines[line - 1 :])
            self.answers(damaged, DOUBLED.get(line, f"no {line + 1} order"))

    def test_each_line_swapped_with_the_next(self) -> None:
        lines = shared(SESSION).splitlines(keepends=True)
        for line in range(1, len(lines)):
            pair = [lines[line], lines[line - 1]]
            damaged = "".join(lines[: line - 1] + pair + lines[line + 1 :])
            self.answers(damaged, SWAPPED.get(line, f"no {line} order"))

    def test_each_number_one_more_and_one_less(self) -> None:
        lines = shared(SESSION).splitlines(keepends=True)
        for line, new, due in number_changes():
            self.answers("".join(lines[: line - 1] + [new + "\n"] + lines[line:]), due)

    def test_bytes_that_no_record_has(self) -> None:
        whole = shared(SESSION)
        for old, new, line in (
            ("good A\n", "good A\r\n", 3),
            ("good A\n", "good  A\n", 3),
            ("good A\n", " good A\n", 3),
            ("good A\n", "good A\0\n", 3),
            ("good A\n", "good \u00c4\n", 3),
            ("settle 0\n", "settle 00\n", 8),
            ("settle 0\n", "settle +0\n", 8),
            ("settle 0\n", "settle -0\n", 8),
            ("settle 0\n", "\nsettle 0\n", 8),
            ("final 10\n", "final 400000000000001\n", 9),
            ("final 10\n", "final 170141183460469231731687303715884105728\n", 9),
            ("leaf 640\n", "leaf 72057594037927937\n", 12),
            ("threshold 5/1", "threshold 10/2", 26),
            ("ice 1 session\n", "ice 3 session\n", 1),
            ("ice 1 session\n", "\ufeffice 1 session\n", 1),
        ):
            self.answers(whole.replace(old, new, 1), f"refused 1 50 {line}")

    def test_bytes_without_sense(self) -> None:
        self.answers(bytes(range(256)), "refused 1 50 1")
        self.answers(b"\0" * 65536, "refused 1 51 1")
        self.answers(b"\n" * 65536, "refused 1 50 1")
        self.answers(b"\xff\xfe" + shared(SESSION).encode("utf-16-le"), "refused 1 50 1")


if __name__ == "__main__":
    unittest.main()
