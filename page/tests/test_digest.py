"""Digests round by round: what is published, and whether a later journal keeps it."""
import contextlib
import hashlib
import io
import os
import subprocess
import sys
import tempfile
import unittest
from pathlib import Path

from support import HERE, sample

from ice_page import digest
from ice_page.lines import FILE_LIMIT

COMMAND = HERE.parent / "ice-digest"
FRONT = sample("open.session").removesuffix("end open\n")
ROUND = "submit z 0 0\nverdict 45\n"
SECOND = FRONT[FRONT.index("settle 0\n") :].replace("settle 0", "settle 1")
TAKEN_ON = FRONT + ROUND + SECOND
CLOSED = f"{TAKEN_ON}{ROUND}settle 2\nend closed\n"
SALT = bytes(range(32))


def sha(text: str, salt: bytes = b"") -> str:
    """The SHA-256 of a salt and a text."""
    return hashlib.sha256(salt + text.encode()).hexdigest()


class Digests(unittest.TestCase):
    """One call, in a folder of its own."""

    def setUp(self) -> None:
        made = tempfile.TemporaryDirectory()
        self.addCleanup(made.cleanup)
        self.folder = Path(made.name)

    def file(self, name: str, content: str | bytes) -> str:
        """The name of a file with this content."""
        data = content if isinstance(content, bytes) else content.encode("latin-1")
        (self.folder / name).write_bytes(data)
        return str(self.folder / name)

    def call(self, *words: str) -> tuple[int, str, str]:
        """The status, standard output and standard error."""
        output, errors = io.StringIO(), io.StringIO()
        with contextlib.redirect_stdout(output), contextlib.redirect_stderr(errors):
            try:
                status = digest.main(list(words))
            except SystemExit as end:
                status = int(end.code or 0)
        return status, output.getvalue(), errors.getvalue()

    def digest(self, journal: str, *words: str) -> str:
        """What is to be published of a journal."""
        status, line, errors = self.call(self.file("journal", journal), *words)
        self.assertEqual((status, errors), (0, ""))
        return line

    def hole(self, size: int) -> str:
        """The name of a file of so many bytes 0, which takes no place."""
        os.truncate(self.file("hole", ""), size)
        return str(self.folder / "hole")

    def status_in(self, megabytes: int, *words: str) -> int:
        """The status of the command in so much memory."""
        limit = f'ulimit -v {1024 * megabytes}; exec "$@"'
        ran = subprocess.run(
            ["sh", "-c", limit, "sh", sys.executable, str(COMMAND), *words],
            capture_output=True,
            check=False,
        )
        self.assertNotIn(b"Traceback", ran.stderr)
        return ran.returncode

    def compare(self, journal: str, published: str, *words: str) -> tuple[int, str]:
        """How a journal keeps a list."""
        files = self.file("journal", journal), self.file("list", published)
        status, lines, errors = self.call(*files, *words)
        self.assertEqual(errors, "")
        return status, lines

    def test_what_is_published(self) -> None:
        front = f"front 0 {len(FRONT)} {sha(FRONT)}\n"
        for last in ("end open", "refused 2 3 bids.0.lo", "refused 2 1 -", "unread 2"):
            self.assertEqual(self.digest(f"{FRONT}{last}\n"), front, last)
        closed = sample("two-settlements.session")
        for text in (closed, closed.replace("ice 2", "ice 3", 1)):
            self.assertEqual(self.digest(text), f"whole 1 {len(text)} {sha(text)}\n")
        spent = sample("ring.spent.session")
        self.assertEqual(self.digest(spent), f"whole 0 {len(spent)} {sha(spent)}\n")
        regret = sample("two-settlements.regret")
        self.assertEqual(self.digest(regret), f"whole - {len(regret)} {sha(regret)}\n")

    def test_later_journals_keep_it(self) -> None:
        first = self.digest(f"{FRONT}end open\n")
        second = self.digest(f"{TAKEN_ON}end open\n")
        whole = self.digest(CLOSED)
        self.assertEqual(second, f"front 1 {len(TAKEN_ON)} {sha(TAKEN_ON)}\n")
        lines = "same front 0\nsame front 1\nsame whole 2\n"
        self.assertEqual(self.compare(CLOSED, first + second + whole), (0, lines))
        self.assertEqual(self.compare(f"{FRONT}end open\n", first), (0, "same front 0\n"))

    def test_changed_journals_do_not(self) -> None:
        first, second = (self.digest(f"{text}end open\n") for text in (FRONT, TAKEN_ON))
        published = first + second + self.digest(CLOSED)
        late = CLOSED.replace("submit z", "submit y")
        lines = "same front 0\nother front 1\nother whole 2\n"
        self.assertEqual(self.compare(late, published), (3, lines))
        early = CLOSED.replace("good A", "good B")
        lines = "other front 0\nother front 1\nother whole 2\n"
        self.assertEqual(self.compare(early, published), (3, lines))
        lines = "same front 0\nother front 1\n"
        self.assertEqual(self.compare(f"{FRONT}end open\n", first + second), (3, lines))
        longer = self.digest(CLOSED.replace("end closed\n", "settle 3\nend closed\n"))
        lines = "same front 0\nsame front 1\nother whole 3\n"
        self.assertEqual(self.compare(CLOSED, first + second + longer), (3, lines))
        again = f"{CLOSED}end closed\n"
        lines = "same front 0\nsame front 1\nother whole 2\n"
        self.assertEqual(self.compare(again, published), (3, lines))

    def test_bytes_that_are_no_front(self) -> None:
        # A digest of other bytes than those up to where a settlement awaits its round binds nothing,
        # though the journal has them: the first ten, all but a line, or those of another settlement.
        first, second, whole = (
            self.digest(text) for text in (f"{FRONT}end open\n", f"{TAKEN_ON}end open\n", CLOSED)
        )
        ten = f"front 1 10 {sha(FRONT[:10])}\n"
        short = TAKEN_ON[: TAKEN_ON.rindex("\n", 0, -1) + 1]
        for line in (
            ten,
            f"front 1 {len(short)} {sha(short)}\n",
            f"front 1 {len(TAKEN_ON + ROUND)} {sha(TAKEN_ON + ROUND)}\n",
            first.replace("front 0", "front 1"),
            whole.replace("whole 2", "front 1"),
            second.replace("front 1", "whole 1"),
        ):
            word, number = line.split()[:2]
            found = self.compare(CLOSED, first + line)
            lines = f"same front 0\nother {word} {number}\n"
            self.assertEqual(found, (3, lines + "none front 1\n" * (word == "whole")), line)
        for line in (ten.replace("front 1", "front 2"), first.replace("front 0", "front 2")):
            found = self.compare(CLOSED, first + second + line)
            self.assertEqual(found, (3, "same front 0\nsame front 1\nother front 2\n"), line)
        for line in (whole.replace("whole 2", "whole 1"), whole.replace("whole 2", "whole -")):
            self.assertEqual(self.compare(CLOSED, first + second + line)[0], 3, line)

    def test_rounds_without_a_line_are_told(self) -> None:
        first, second, whole = (
            self.digest(text) for text in (f"{FRONT}end open\n", f"{TAKEN_ON}end open\n", CLOSED)
        )
        for published, lines in (
            (first + second + whole, "same front 0\nsame front 1\nsame whole 2\n"),
            (second, "same front 1\nnone front 0\n"),
            (whole, "same whole 2\nnone front 0\nnone front 1\n"),
        ):
            self.assertEqual(self.compare(CLOSED, published), (0, lines))
        waiting = self.compare(f"{TAKEN_ON}end open\n", first)
        self.assertEqual(waiting, (0, "same front 0\nnone front 1\n"))

    def test_places_without_a_round(self) -> None:
        # Rows of `accuracy`, bids, and another settlement's prices are no end of a front.
        prices = FRONT[: FRONT.index("balance ")]
        for text in (prices, FRONT + ROUND, f"{TAKEN_ON}{ROUND}settle 2\n", "ice 2 session\n"):
            status, lines, errors = self.call(self.file("bad", f"{text}end open\n"))
            self.assertEqual((status, lines, "no round is awaited" in errors), (2, "", True), text)
        skipped = self.file("bad", CLOSED.replace("settle 1\n", "settle 2\n"))
        self.assertIn("`settle 1` is due", self.call(skipped)[2])

    def test_numbers_that_are_too_long(self) -> None:
        journal = self.file("journal", CLOSED)
        digest = sha(FRONT)
        for line in (
            f"front 0 {'9' * 5000} {digest}",
            f"front {'9' * 5000} 10 {digest}",
            f"front 00 {len(FRONT)} {digest}",
            f"front - {len(FRONT)} {digest}",
        ):
            status, lines, errors = self.call(journal, self.file("list", line))
            self.assertEqual((status, lines), (2, ""), line[:20])
            self.assertIn("line 1 is no digest", errors)

    def test_files_past_their_limits(self) -> None:
        # No more is read than tells that a file is too long.
        journal = self.file("journal", CLOSED)
        limits: tuple[tuple[int, tuple[str, ...]], ...] = (
            (FILE_LIMIT, ()),
            (digest.LIST_LIMIT, (journal,)),
            (digest.SALT_BYTES, (journal, "--salt")),
        )
        for limit, words in limits:
            status, lines, errors = self.call(*words, self.hole(limit + 1))
            self.assertEqual((status, lines), (2, ""), words)
            self.assertRegex(errors, "longer than|has 32 bytes")
        for words in ((), (journal,)):
            self.assertEqual(self.status_in(200, *words, self.hole(1 << 34)), 2)

    def test_front_of_many_rows(self) -> None:
        # Five million of them behind `balance`, of which a pattern may not keep each.
        front = FRONT + "row 0 1 1\n" * 5_000_000
        line = self.digest(f"{front}end open\n")
        self.assertEqual(line, f"front 0 {len(front)} {sha(front)}\n")
        self.assertEqual(self.status_in(200, str(self.folder / "journal")), 0)
        self.assertEqual(self.status_in(60, str(self.folder / "journal")), 8)

    def test_words_behind_an_option(self) -> None:
        salt = self.file("salt", SALT)
        published = self.digest(f"{FRONT}end open\n", "--salt", salt)
        files = self.file("journal", CLOSED), self.file("list", published)
        found = self.call(files[0], "--salt", salt, files[1])
        self.assertEqual(found, (0, "same front 0\nnone front 1\n", ""))

    def test_salt(self) -> None:
        salt = self.file("salt", SALT)
        published = self.digest(f"{FRONT}end open\n", "--salt", salt)
        self.assertEqual(published, f"front 0 {len(FRONT)} {sha(FRONT, SALT)} salted\n")
        kept = self.compare(CLOSED, published, "--salt", salt)
        self.assertEqual(kept, (0, "same front 0\nnone front 1\n"))
        other = self.file("other", SALT[::-1])
        self.assertEqual(self.compare(CLOSED, published, "--salt", other)[0], 3)
        plain = self.digest(f"{FRONT}end open\n")
        both = self.compare(CLOSED, plain + published, "--salt", salt)
        self.assertEqual(both, (0, "same front 0\nsame front 0\nnone front 1\n"))
        files = self.file("journal", CLOSED), self.file("list", published)
        status, lines, errors = self.call(*files)
        self.assertEqual((status, lines, "--salt" in errors), (2, "", True))

    def test_files_at_fault(self) -> None:
        journal = self.file("journal", f"{FRONT}end open\n")
        for text in ("", "ice 1 prices\nend prices\n", FRONT[:-1], "x"):
            self.assertEqual(self.call(self.file("bad", text))[:2], (2, ""), text)
        digest_line = f"front 0 {len(FRONT)} {sha(FRONT)}"
        for text in ("", "front", f"{digest_line} x\n", digest_line.replace("front", "back")):
            self.assertEqual(self.call(journal, self.file("bad", text))[:2], (2, ""), text)
        for salt in (b"", SALT[1:], SALT + b"\n"):
            self.assertEqual(self.call(journal, "--salt", self.file("salt", salt))[:2], (2, ""))

    def test_files_that_cannot_be_read(self) -> None:
        journal, absent = self.file("journal", f"{FRONT}end open\n"), str(self.folder / "absent")
        for words in ((absent,), (journal, absent), (journal, "--salt", absent)):
            status, lines, errors = self.call(*words)
            self.assertEqual((status, lines, absent in errors), (6, "", True), words)

    def test_words(self) -> None:
        for words in ((), ("a", "b", "c"), ("a", "--salted", "b")):
            self.assertEqual(self.call(*words)[:2], (1, ""), words)
        self.assertEqual(self.call("--help")[0], 0)

    def test_the_command(self) -> None:
        journal = self.file("journal", f"{FRONT}end open\n")
        command = [sys.executable, str(COMMAND), journal]
        ran = subprocess.run(command, stdout=subprocess.PIPE, check=True, text=True)
        self.assertEqual(ran.stdout, f"front 0 {len(FRONT)} {sha(FRONT)}\n")
        with open("/dev/full", "wb") as full:
            ended = subprocess.run(command, stdout=full, stderr=subprocess.DEVNULL, check=False)
            self.assertEqual(ended.returncode, 7)
        self.assertTrue(os.access(COMMAND, os.X_OK))


if __name__ == "__main__":
    unittest.main()
