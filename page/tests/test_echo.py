"""What is echoed: no control character and no mark of direction, on a terminal or on a page."""
import contextlib
import io
import os
import re
import subprocess
import sys
import tempfile
import unicodedata
import unittest
from pathlib import Path
from typing import Any
from unittest import mock

from support import HERE, SAMPLES, page_of, run, sample

from ice_page import command, digest, nets_command, table_command
from ice_page.plain import plain

SESSION = "two-settlements.session"
# A title of the window, a cleared screen, a control of one byte, and marks of direction.
WILD = "a\x1b]0;x\x07\x1b[2J yes 0\x9b31m\u202eb\u2066\u200f\u2028.journal"
SPELLED = (
    "a\\x1b]0;x\\x07\\x1b[2J yes 0\\x9b31m\\u202eb\\u2066\\u200f\\u2028.journal"
)
COMMANDS: dict[str, tuple[Any, str, tuple[list[str], ...]]] = {
    "ice-page": (command, "read_file", ([], ["--title"], ["-o", "page.html"])),
    "ice-nets": (nets_command, "read_file", (["b"],)),
    "ice-table": (table_command, "read_tables", (["folder"], ["--json"])),
    "ice-digest": (digest, "Bound", ([], ["list"])),
}


def call(name: str, *words: str) -> tuple[int, str]:
    """The status of a command in this process, and both its outputs as text."""
    made = io.BytesIO()
    output = io.TextIOWrapper(made, encoding="utf-8", write_through=True)
    with contextlib.redirect_stdout(output), contextlib.redirect_stderr(output):
        try:
            status = COMMANDS[name][0].main(words)
        except SystemExit as end:
            status = int(end.code or 0)
    return status, made.getvalue().decode()


def wild(text: str) -> list[str]:
    """The characters of a text that a terminal or a browser would act on."""
    return [
        letter
        for letter in text
        if unicodedata.category(letter) in ("Cc", "Cf", "Cs", "Zl", "Zp") and letter != "\n"
    ]


class Echo(unittest.TestCase):
    """Names and words with such characters."""

    def setUp(self) -> None:
        folder = tempfile.TemporaryDirectory()
        self.addCleanup(folder.cleanup)
        self.folder = Path(folder.name)
        self.addCleanup(os.chdir, os.getcwd())
        os.chdir(folder.name)

    def test_what_is_spelled(self) -> None:
        self.assertEqual(plain(WILD), SPELLED)
        self.assertEqual(plain("\udc9b"), "\\udc9b")
        kept = "Börse 2026, 5 k€, 1\xa0000 \u05d0\u05d1 “≈”"
        self.assertEqual(plain(kept), kept)

    def test_names_of_files_and_words(self) -> None:
        Path(WILD).write_text("no journal\n")
        for name, (_, _, more) in COMMANDS.items():
            for words in more:
                for file in (WILD, f"absent-{WILD}"):
                    status, said = call(name, file, *words)
                    self.assertIn(status, (1, 2, 6), (name, words))
                    self.assertEqual(wild(said), [], (name, words))
                    if words != ["--title"]:
                        self.assertIn(SPELLED, said)
            status, said = call(name, "a", "b", "c", "d", f"--{WILD}")
            self.assertEqual((status, wild(said)), (1, []), name)

    def test_bidders_and_rounds(self) -> None:
        Path("j").write_text(sample(SESSION))
        for name, bidder in (("ice-page", ["--bidder", WILD]), ("ice-nets", [WILD])):
            status, said = call(name, "j", *bidder)
            self.assertEqual((status, wild(said)), (2, []))
            self.assertIn(f"no bidder is named {SPELLED}", said)
            status, said = call(name, "j", "--round", WILD, *bidder)
            self.assertEqual((status, wild(said)), (1, []))
            self.assertIn("is no whole number", said)

    def test_words_on_a_page(self) -> None:
        options = ("--title", "--unit", "--date", "--made-by", "--digest", "--checked")
        for option in options:
            page = run(sample(SESSION), option, WILD)[1]
            self.assertEqual(wild(page), [], option)
            found = page_of(sample(SESSION), option, WILD)
            self.assertIn(SPELLED, [part.text for part in found.root.all("bdi")], option)

    def test_names_on_a_page(self) -> None:
        Path(WILD).write_text(sample(SESSION))
        page = call("ice-page", WILD)[1]
        self.assertEqual(wild(page), [])
        digest = "[0-9a-f]{64}"
        self.assertRegex(page, rf"<bdi>{re.escape(SPELLED)}</bdi>, kind .*<code>{digest}</code>")
        # Letters from right to left stand as they are, in an element of their own direction.
        self.assertIn("<bdi>\u05d0</bdi>", run(sample(SESSION), "--title", "\u05d0")[1])

    def test_each_page_loads_nothing(self) -> None:
        policy = "default-src 'none'; style-src 'unsafe-inline'"
        for file in SAMPLES[:3]:
            head = page_of(file.read_text()).root.all("head")[0]
            policies = [
                part.attributes["content"]
                for part in head.all("meta")
                if part.attributes.get("http-equiv") == "Content-Security-Policy"
            ]
            self.assertEqual(policies, [policy])


class Endings(unittest.TestCase):
    """Want of memory, interrupts, and outputs that are closed."""

    def setUp(self) -> None:
        folder = tempfile.TemporaryDirectory()
        self.addCleanup(folder.cleanup)
        self.folder = Path(folder.name)
        self.journal = str(self.folder / "j")
        Path(self.journal).write_text(sample("open.session"))

    def words(self, name: str) -> list[str]:
        """Words on which a command succeeds."""
        more = {"ice-nets": ["b"], "ice-table": ["--json"]}.get(name, [])
        return [self.journal, *more]

    def test_want_of_memory_and_interrupts(self) -> None:
        for name, (module, reader, _) in COMMANDS.items():
            self.assertEqual(call(name, *self.words(name))[0], 0)
            for fault, ending in (
                (MemoryError, (8, f"{name}: want of memory\n")),
                (KeyboardInterrupt, (130, "")),
            ):
                with mock.patch.object(module, reader, side_effect=fault):
                    self.assertEqual(call(name, *self.words(name)), ending)

    def ran(self, name: str, how: str) -> subprocess.CompletedProcess[str]:
        """A command as a process whose outputs go elsewhere."""
        words = [sys.executable, str(HERE.parent / name), *self.words(name)]
        shell = ["sh", "-c", f'exec "$@" {how}', "sh", *words]
        return subprocess.run(shell, capture_output=True, check=False, text=True)

    def test_outputs_that_are_closed_or_full(self) -> None:
        for name, how, status in (
            ("ice-page", ">&-", 7),
            ("ice-digest", ">&-", 7),
            ("ice-table", ">/dev/full", 7),
            ("ice-nets", "2>&-", 0),
        ):
            ran = self.ran(name, how)
            self.assertEqual(ran.returncode, status, (name, how, ran.stderr))
            self.assertNotIn("Traceback", ran.stderr)
            self.assertEqual(f"{name}: standard output: " in ran.stderr, status == 7)

    def test_a_fault_where_nobody_listens(self) -> None:
        self.journal = "/nowhere/journal"
        for how in ("2>&-", "2>/dev/full"):
            ran = self.ran("ice-page", how)
            self.assertEqual((ran.returncode, ran.stdout), (6, ""), how)

    def test_words_behind_an_option(self) -> None:
        for name, *words in (
            ("ice-page", "--title", "x", self.journal, "--unit", "k€"),
            ("ice-nets", self.journal, "--round", "1", "b"),
            ("ice-table", self.journal, "--round", "100", str(self.folder / "out")),
        ):
            status, said = call(name, *words)
            self.assertEqual(status, 0, said)
        status, said = call("ice-table", self.journal, "--json", "--round", "0")
        self.assertEqual((status, "a unit has 1 coin or more" in said), (1, True))
        status, said = call("ice-table", self.journal, "--json", "--round", "coin")
        self.assertEqual((status, "`coin` is no whole number" in said), (1, True))


if __name__ == "__main__":
    unittest.main()
