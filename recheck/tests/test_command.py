"""The command: lines, statuses and what it says of itself."""
import os
import subprocess
import sys
import tempfile
import unittest
from pathlib import Path
from typing import Any
from unittest import mock

from support import COMMAND, ROOT, answer

from ice_recheck import command, journals

SAMPLE = ROOT / "examples" / "sample.journal"


def run(*words: str | bytes, **how: Any) -> tuple[int, str, str]:
    """The status, standard output and standard error of a run."""
    how = {"stdout": subprocess.PIPE, **how}
    command = [sys.executable, str(COMMAND), *words]
    ran = subprocess.run(command, stderr=subprocess.PIPE, check=False, **how)
    return ran.returncode, (ran.stdout or b"").decode(), ran.stderr.decode()


class Statuses(unittest.TestCase):
    """One line and one status for each call."""

    def test_yes(self) -> None:
        status, line, said = run(str(SAMPLE))
        self.assertEqual((status, line), (0, "yes 10\n"))
        self.assertIn("nothing is proved", said)
        self.assertEqual(run("/dev/stdin", input=SAMPLE.read_bytes())[:2], (0, "yes 10\n"))

    def test_no(self) -> None:
        damaged = SAMPLE.read_bytes().replace(b"set 1\nset 1", b"set 0\nset 1")
        self.assertEqual(run("/dev/stdin", input=damaged)[:2], (3, "no 10 excess\n"))

    def test_refused(self) -> None:
        damaged = SAMPLE.read_bytes() + b"more\n"
        self.assertEqual(run("/dev/stdin", input=damaged)[:2], (2, "refused 1 50 12\n"))
        self.assertEqual(run("/dev/null")[:2], (2, "refused 1 53 -\n"))

    def test_too_large(self) -> None:
        with tempfile.TemporaryDirectory() as folder:
            file = Path(folder, "large")
            with file.open("wb") as sink:
                sink.truncate(134_217_728)
            self.assertEqual(run(str(file))[:2], (2, "refused 1 51 1\n"))
            with file.open("ab") as sink:
                sink.write(b"\n")
            self.assertEqual(run(str(file))[:2], (2, "refused 1 61 -\n"))

    def test_unread(self) -> None:
        for name in ("absent.journal", "", "."):
            self.assertEqual(run(name, cwd=ROOT)[:2], (6, "unread 1\n"), name)

    def test_gap(self) -> None:
        journal = ROOT / "tests" / "files" / "spent-final.session"
        if not journal.exists():
            self.skipTest("the tables aren't here")
        status, line, said = run("--gap", str(journal))
        self.assertEqual((status, line), (0, "gap final 0 10\n"))
        self.assertIn("nothing is proved", said)
        self.assertEqual(run(str(journal))[:2], (3, "no 9 closed\n"))
        self.assertEqual(run("--gap", str(SAMPLE))[:2], (3, "no 12 spent\n"))
        self.assertEqual(run("--gap", "/dev/null")[:2], (2, "refused 1 53 -\n"))
        self.assertEqual(run("--gap", "absent.journal")[:2], (6, "unread 1\n"))

    def test_words(self) -> None:
        wrong: tuple[tuple[str | bytes, ...], ...] = (
            (),
            ("a", "b"),
            (b"\xff",),
            ("--gap", "a", "b"),
            ("--gap", b"\xff"),
        )
        for words in wrong:
            status, line, said = run(*words)
            self.assertEqual((status, line), (1, "words refused\n"), words)
            self.assertIn("usage: ice-recheck JOURNAL", said)

    def test_nothing_of_a_file_or_of_its_name_is_echoed(self) -> None:
        with tempfile.TemporaryDirectory() as folder:
            file = Path(folder, "a\x1b]0;x\x07\x1b[2J yes 0\x9b\u202eb\u2067.journal")
            for content, wanted in (
                (SAMPLE.read_bytes(), (0, "yes 10\n")),
                (b"\x1b[2J yes 10\n", (2, "refused 1 50 1\n")),
                (b"ice 2 session\n\x1b[2J yes 10\n", (2, "refused 1 50 2\n")),
                (None, (6, "unread 1\n")),
            ):
                if content is None:
                    file.unlink()
                else:
                    file.write_bytes(content)
                status, line, said = run(str(file))
                told = "ice-recheck: a second opinion, of which nothing is proved\n"
                self.assertEqual((status, line, said), (*wanted, told))
            said = run(file.name, file.name)[2]
            self.assertTrue("".join(said.split("\n")).isprintable(), ascii(said))

    def test_help(self) -> None:
        for word in ("--help", "-h"):
            status, text, _ = run(word)
            self.assertEqual((status, text.split("\n")[0]), (0, "usage: ice-recheck JOURNAL"))

    def test_no_output(self) -> None:
        with open("/dev/full", "wb") as full:
            self.assertEqual(run(str(SAMPLE), stdout=full)[0], 7)
        reading, writing = os.pipe()
        os.close(reading)
        self.assertEqual(run(str(SAMPLE), stdout=writing)[0], 7)
        os.close(writing)

    def test_no_memory(self) -> None:
        limited = f"ulimit -v 120000; exec {sys.executable} {COMMAND} /dev/zero"
        ran = subprocess.run(["bash", "-c", limited], capture_output=True, check=False)
        self.assertEqual((ran.returncode, ran.stdout), (8, b""))

    def test_an_interrupt(self) -> None:
        with mock.patch.object(command, "answer_to", side_effect=KeyboardInterrupt):
            self.assertEqual(command.main([str(SAMPLE)]), 130)


class Order(unittest.TestCase):
    """Lines at fault come before every test, wherever they stand."""

    def test_lines_at_fault_come_first(self) -> None:
        lines = SAMPLE.read_text().splitlines(keepends=True)
        self.assertEqual(answer("".join(lines[1:])), ("refused 1 53 -", 2))
        self.assertEqual(answer("".join([*lines[1:], "x\n"])), ("refused 1 50 11", 2))
        self.assertEqual(answer("".join([*lines[:4], *lines, "x\n"])), ("refused 1 50 16", 2))
        self.assertEqual(answer("".join([*lines[:4], *lines, "x"])), ("refused 1 51 16", 2))
        self.assertEqual(answer("".join([*lines[:4], *lines])), ("no 5 order", 3))

    def test_limit(self) -> None:
        self.assertEqual(journals.LIMIT, 134_217_728)


if __name__ == "__main__":
    unittest.main()
