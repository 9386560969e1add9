"""The second opinion on statements: the tables of the program's tests, and every damaged one."""
from __future__ import annotations

import subprocess
import sys
import unittest
from collections.abc import Iterator

from support import HERE, ROOT

from ice_recheck.journals import check
from ice_recheck.statements import audit

HAS_TOML = sys.version_info >= (3, 11)
if sys.version_info >= (3, 11):
    import tomllib

TABLE = ROOT / "tests/rows/audit.toml"
FILES = ROOT / "tests/files"
STATEMENTS = sorted(FILES.glob("*.statement"))
STATUSES = {"yes": 0, "refused": 2, "no": 3}


def changed(text: str, place: int | str, new: str) -> str:
    """A text with another line at a place, without it, or with another text."""
    if isinstance(place, str):
        return text.replace(place, new, 1)
    if place == 0:
        return new
    lines = text.splitlines(keepends=True)
    lines[place - 1] = f"{new}\n" if new else ""
    return "".join(lines)


def rows() -> Iterator[tuple[str, str, str]]:
    """The name, the statement and the answer of each row that audits a file alone."""
    for case in tomllib.loads(TABLE.read_text())["case"]:
        file = FILES / case.get("words", ["", "absent"])[1]
        if file.exists() and "write" not in case:
            for *changes, output in case.get("rows", [[case.get("output")]]):
                text = file.read_text()
                for place, new in zip(changes[::2], changes[1::2]):
                    text = changed(text, place, new)
                yield case["name"], text, output


@unittest.skipUnless(STATEMENTS, "the statements aren't here")
class Statements(unittest.TestCase):
    """What is said of a statement."""

    @unittest.skipUnless(HAS_TOML, "Python is older than 3.11")
    def test_rows(self) -> None:
        found = list(rows())
        self.assertGreater(len(found), 70)
        for name, text, output in found:
            with self.subTest(name, output=output):
                line, status = audit(text.encode())
                self.assertEqual((line, status), (output, STATUSES[output.split()[0]]))

    def test_cut_statements_are_short(self) -> None:
        for file in STATEMENTS:
            lines = file.read_text().splitlines(keepends=True)
            for count in range(len(lines)):
                answer = audit("".join(lines[:count]).encode())
                self.assertEqual(tuple(answer), (f"no {count + 1} short", 3), (file.name, count))

    def test_lines_left_out_or_doubled(self) -> None:
        for file in STATEMENTS:
            lines = file.read_text().splitlines(keepends=True)
            for place, line in enumerate(lines):
                front, back = lines[:place], lines[place + 1 :]
                for other in (front + back, [*front, line, line, *back]):
                    answer = audit("".join(other).encode())
                    self.assertEqual(answer.status, 3, (file.name, place + 1))

    def test_each_opinion_on_its_own_kind(self) -> None:
        statement = STATEMENTS[0].read_bytes()
        self.assertEqual(tuple(check(statement)), ("refused 1 50 1", 2))
        journal = (FILES / "rounds.session").read_bytes()
        self.assertEqual(tuple(audit(journal)), ("no 1 order", 3))

    def test_the_command(self) -> None:
        command = [str(HERE.parent / "ice-reaudit"), str(FILES / "seller.statement")]
        ran = subprocess.run(command, capture_output=True, text=True, check=False)
        said = "ice-reaudit: a second opinion, of which nothing is proved\n"
        self.assertEqual((ran.returncode, ran.stdout, ran.stderr), (0, "yes -31/2\n", said))


if __name__ == "__main__":
    unittest.main()
