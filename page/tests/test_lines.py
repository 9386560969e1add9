"""Lines from bytes: their limits, and logs that are counted over blocks."""
import io
import random
import unittest

import support  # noqa: F401

from ice_page import lines
from ice_page.lines import BadJournal, Lines


def fault(data: bytes) -> str:
    """What is wrong with the first line at fault."""
    try:
        reader = Lines(io.BytesIO(data))
        while not reader.ended:
            reader.step()
    except BadJournal as bad:
        return str(bad)
    return ""


def drawn_log(seed: int, most: int) -> list[str]:
    """A log of some steps, drawn from a seed."""
    draw, sides = random.Random(seed), 1
    steps: list[str] = []
    while sides:
        word = draw.choice(["branch 3 17", "near 2 0 640 5 -9", "near 0", "dead 39"])
        if len(steps) + sides >= most and word[0] == "b":
            word = "dead 0"
        sides += 1 if word[0] == "b" else -1
        steps.append(word)
    return steps


class LinesOfBytes(unittest.TestCase):
    """Which bytes are lines."""

    def test_limits(self) -> None:
        self.assertEqual(fault(b""), "")
        self.assertEqual(fault(b"a\nb\n"), "")
        self.assertEqual(fault(b"a\n" + b"b" * 8192 + b"\n"), "")
        self.assertEqual(fault(b"a\n" + b"b" * 8193 + b"\n"), "line 2: longer than 8,192 bytes")
        self.assertEqual(fault(b"b" * 99999), "line 1: longer than 8,192 bytes")
        self.assertEqual(fault(b"a\nb"), "line 2: ends without a newline: the file is cut")

    def test_bytes(self) -> None:
        for byte in (0, 9, 13, 31, 127, 128, 255):
            self.assertEqual(
                fault(b"a\nb" + bytes([byte]) + b"c\n"), "line 2: a byte that stands in no journal"
            )

    def test_whole_file_has_a_limit(self) -> None:
        kept, lines.FILE_LIMIT = lines.FILE_LIMIT, 100
        try:
            self.assertEqual(fault(b"a\n" * 50), "")
            self.assertIn("longer than 100 bytes", fault(b"a\n" * 51))
        finally:
            lines.FILE_LIMIT = kept
        self.assertEqual(lines.FILE_LIMIT, 134_217_728)


class Logs(unittest.TestCase):
    """Logs, counted."""

    def test_counts_whatever_the_blocks(self) -> None:
        kept = lines.BLOCK
        try:
            for seed in range(60):
                steps = drawn_log(seed, 1 + seed * 7)
                data = "".join(f"{step}\n" for step in steps)
                for lines.BLOCK in (1, 7, 64, kept):
                    reader = Lines(io.BytesIO((data + "near 0\nend spent\n").encode()))
                    log = reader.log("near")
                    words = [step.split()[0] for step in steps]
                    self.assertEqual(
                        (log.branches, log.leaves, log.dead, log.size),
                        (
                            words.count("branch"),
                            words.count("near"),
                            words.count("dead"),
                            len(data),
                        ),
                    )
                    self.assertEqual((reader.number, reader.line), (len(steps) + 1, "near 0"))
        finally:
            lines.BLOCK = kept

    def test_names_the_line_at_fault(self) -> None:
        for bad, why in (
            ("leaf 0", "line 3: `leaf 0` stands"),
            ("near 1 O", "line 3: `near 1 O` stands"),
            ("near", "line 3: `near` stands"),
            ("branch 40 0", "line 3: `branch 40 0`"),
            ("set 1", "line 3: `set 1` stands"),
        ):
            reader = Lines(io.BytesIO(f"branch 0 0\nnear 0\n{bad}\nend x\n".encode()))
            with self.assertRaisesRegex(BadJournal, why):
                reader.log("near")
        with self.assertRaisesRegex(
            BadJournal, "line 2: the file ends where `leaf` or `branch` or `dead` is due"
        ):
            Lines(io.BytesIO(b"branch 0 0\n")).log("leaf")


if __name__ == "__main__":
    unittest.main()
