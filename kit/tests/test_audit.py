"""The kit audits statements as the second opinion does: those of all sessions here, and damaged ones."""
from __future__ import annotations

import random
import re
import subprocess
import unittest

from support import PROGRAM, ROOT, all_statements, asked, encoded, needs_node, needs_program

from ice_recheck.journals import LIMIT
from ice_recheck.statements import audit

try:
    import tomllib
except ImportError:  # before Python 3.11
    tomllib = None  # type: ignore[assignment]

FILES = sorted(ROOT.glob("tests/files/*.statement"))
TABLE = ROOT / "tests/rows/audit.toml"
OPEN_END = b"end open\n"
DAMAGED = 1500
NUMBER = re.compile(rb"-?\d+")
BITS = re.compile(rb"[01]+")


def whole_statements() -> list[bytes]:
    """The statements of all sessions here, and those of the program's tests."""
    return all_statements() + [file.read_bytes() for file in FILES]


def rows() -> list[tuple[bytes, str]]:
    """Each statement of the program's tests of `audit`, and the line that was reckoned for it."""
    found = []
    for case in tomllib.loads(TABLE.read_text())["case"]:
        file = ROOT / "tests/files" / case.get("words", ["", "absent"])[1]
        if not file.exists() or "write" in case:
            continue
        for *changes, line in case.get("rows", [[case.get("output")]]):
            text = file.read_text()
            for place, new in zip(changes[::2], changes[1::2]):
                lines = text.splitlines(keepends=True)
                if isinstance(place, str):
                    text = text.replace(place, new, 1)
                elif place == 0:
                    text = new
                else:
                    lines[place - 1] = new and f"{new}\n"
                    text = "".join(lines)
            found.append((text.encode(), line))
    return found


def with_line(draw: random.Random, lines: list[bytes]) -> list[bytes]:
    """A line is left out, stands twice, changes places, or is one of another place."""
    place, other = draw.randrange(len(lines)), draw.randrange(len(lines))
    way = draw.randrange(4)
    if way == 0:
        return lines[:place] + lines[place + 1 :]
    if way == 1:
        return lines[: place + 1] + lines[place:]
    found = lines.copy()
    found[place] = lines[other]
    if way == 2:
        found[other] = lines[place]
    return found


def with_number(draw: random.Random, line: bytes) -> bytes:
    """A number of a line is another one, or is spelled otherwise."""
    places = list(NUMBER.finditer(line))
    if not places:
        return line + b" 1"
    place = draw.choice(places)
    old = int(place[0])
    other = draw.choice([old + 1, old - 1, -old, 0, 1, old * 10, 10**9 + 1, draw.randrange(40, 47)])
    spelled = draw.choice([b"%d"] * 12 + [b"+%d", b"0%d", b"%d/1", b"%d "]) % other
    return line[: place.start()] + spelled + line[place.end() :]


def with_bit(draw: random.Random, line: bytes) -> bytes:
    """A bit of a set is another one, or there is one more or less."""
    head, _, bits = line.rpartition(b" ")
    if not BITS.fullmatch(bits):
        return line
    place = draw.randrange(len(bits))
    other = draw.choice([b"0", b"1", b"", bits[place : place + 1] * 2])
    return head + b" " + bits[:place] + other + bits[place + 1 :]


def damaged(draw: random.Random, statement: bytes) -> bytes:
    """A statement with a few things changed."""
    lines = statement.splitlines()
    for _ in range(draw.choice([1, 1, 1, 2, 3])):
        place = draw.randrange(len(lines))
        way = draw.choice([with_number, with_number, with_number, with_bit, None])
        if way is None:
            lines = with_line(draw, lines) or lines
        else:
            lines[place] = way(draw, lines[place])
    found = b"".join(line + b"\n" for line in lines)
    return found[:-1] if draw.random() < 0.02 else found


def drawn_damage(count: int) -> list[bytes]:
    """So many damaged statements, drawn from seeds."""
    every = [text for text in whole_statements() if len(text) < 4000]
    return [damaged(draw, draw.choice(every)) for draw in map(random.Random, range(count))]


def answers(texts: list[bytes]) -> list[tuple[str, int, bool]]:
    """The kit's line and status of each text, and whether it is right so far."""
    found = asked({"kind": "audit", "content": encoded(text)} for text in texts)
    return [(each["line"], each["status"], each["told"]["isOpen"]) for each in found]


def is_so_far(text: bytes) -> bool:
    """Whether the statement of a session that waits is right up to its end, by the second opinion."""
    lines = text.splitlines()
    fails_at_the_end = tuple(audit(text)) == (f"no {len(lines)} order", 3)
    return text.endswith(b"\n" + OPEN_END) and fails_at_the_end and lines[-2].startswith(b"prices ")


@needs_node
class Audits(unittest.TestCase):
    """The kit's answers are those of `ice-reaudit`."""

    def agree(self, texts: list[bytes]) -> list[tuple[str, int, bool]]:
        """Compares the answers; those of the kit."""
        found = answers(texts)
        self.assertEqual(len(found), len(texts))
        for text, (line, status, is_open) in zip(texts, found):
            self.assertEqual((line, status), tuple(audit(text)), text)
            self.assertEqual(is_open, is_so_far(text), text)
        return found

    def test_statements(self) -> None:
        found = self.agree(whole_statements())
        closed = [line for line, status, is_open in found if status == 0]
        waiting = [line for line, _, is_open in found if is_open]
        self.assertEqual(len(closed) + len(waiting), len(found))
        self.assertGreater(min(len(closed), len(waiting)), 50)

    def test_damaged_ones(self) -> None:
        found = self.agree(drawn_damage(DAMAGED))
        rules = {line.split()[-1] for line, status, _ in found if status == 3}
        every = {"order", "short", "exchange", "count", "parent", "few", "many", "prices"}
        self.assertEqual(rules, every | {"verdict", "payment"})
        self.assertEqual({line[:12] for line, status, _ in found if status == 2}, {"refused 1 50", "refused 1 51"})
        self.assertTrue(any(is_open for _, _, is_open in found))

    @unittest.skipUnless(tomllib and TABLE.exists(), "the table isn't here, or Python before 3.11")
    def test_rows_of_the_program(self) -> None:
        texts, due = zip(*rows())
        self.assertGreater(len(due), 70)
        self.assertEqual(tuple(line for line, _, _ in answers(list(texts))), due)

    def test_a_long_file(self) -> None:
        for more, line in ((1, "refused 1 61 -"), (0, "refused 1 51 1")):
            (found,) = asked([{"kind": "audit", "zeros": LIMIT + more}])
            self.assertEqual(found["line"], line)

    def test_lines_that_are_none(self) -> None:
        lines = ["settle 20", "settle 21", "settle 01", "settle +1", "settle -0", "settle 1_0", "near 33"]
        lines += ["settle 1.0", "settle 1n", "settle 0x1", "settle \xb2", "near 0 0 0", "near 1 0 1"]
        lines += ["near 2 1 0 1 0", "near 2 1 0 0 0", "near 2 0 0 1 0", "submit b 0 0", "submit b 0"]
        lines += ["submit b 1 2 0", "submit b 1 2 1 3", "submit b 2 1 2 1", "leaf", "leaf 0", "end"]
        lines += [f"derive {2**40}", f"derive {-(2**40) - 1}", "derive -0", "derive", "amounts", "amounts 0"]
        lines += ["amounts 39 1 199 -1048576", "amounts 40 1 0 1", "amounts 0 1 200 1", "amounts 0 1 0 1048577"]
        lines += ["amounts 0 0", "amounts 0 1 0 0", "amounts 0 2 1 1 0 1", "amounts 0 2 0 1", "tolled", "tolled 0"]
        lines += [f"tolled 1 2031 {2**62}", f"tolled 1 0 {-(2**62) - 1}", "tolled 1 2032 1", "tolled 2 1 0 1 1"]
        lines += ["threshold 1/2 2/4", "threshold 0/1 -0/1", "threshold 1/1001 0/1", "prices 1", "kept"]
        lines += ["toString", "constructor x", "__proto__", "verdict 47", "verdict 45", "node choose"]
        lines += [f"spent 0 {-(2**127)}", f"spent 0 {2**127}", f"accuracy {2**100 + 1} 1", "a\tb", ""]
        lines += ["payment b 1000000000000000 0/1 0/1", "payment b 1000000000000001 0/1 0/1", "end open"]
        lines += ["final -400000000000000", "final -400000000000001", "end statement", "end nothing"]
        lines += ["kept 1" + "0" * 199, "kept 1" + "0" * 200, "offered 2", "statement " + "b" * 33, "x" * 8193]
        self.agree([f"statement b\n{line}\n".encode("latin-1") for line in lines])


@needs_node
@needs_program
class Program(unittest.TestCase):
    """The kit's answers are those of `ice audit`."""

    def test_damaged_ones(self) -> None:
        texts = whole_statements() + drawn_damage(200)
        for text, (line, status, _) in zip(texts, answers(texts)):
            ran = subprocess.run([str(PROGRAM), "audit", "/dev/stdin"], input=text, capture_output=True, check=False)
            self.assertEqual((ran.stdout.decode(), ran.returncode), (f"{line}\n", status), text)


if __name__ == "__main__":
    unittest.main()
