"""Tests of the folder that is handed on, and of completion, with a stand-in for the program and with bash alone."""
from __future__ import annotations

import pathlib
import shutil
import subprocess
import tempfile
import unittest

TOP = pathlib.Path(__file__).resolve().parent.parent.parent
TOOLS = "chmod mktemp mv readlink rm"  # what -o wants


class HandedOn(unittest.TestCase):
    """Each test has such a folder, and a PATH with bash alone."""

    def setUp(self) -> None:
        self.top = pathlib.Path(tempfile.mkdtemp(prefix="launch-"))
        self.addCleanup(shutil.rmtree, self.top)
        shutil.copy(TOP / "ice", self.top)
        shutil.copytree(TOP / "launch", self.top / "launch", ignore=shutil.ignore_patterns("tests", "build.bash"))
        (self.top / "COMMIT").write_text("0123abc\n")
        (self.top / "KIT").write_text("rattle-kit-13f\n")
        self.program('#!/bin/sh\necho "refused 1 13 bidders.0"\nexit 2\n')
        (self.top / "bin").mkdir()
        self.tool("bash")
        self.where = {"PATH": str(self.top / "bin"), "TMPDIR": str(self.top), "LC_ALL": "C.UTF-8"}

    def tool(self, name: str) -> None:
        """Puts this tool on the PATH."""
        (self.top / "bin" / name).symlink_to(shutil.which(name) or "/absent")

    def program(self, text: str) -> None:
        """Puts this program beside the launcher."""
        (self.top / "ice_cli").write_text(text)
        (self.top / "ice_cli").chmod(0o755)

    def run_it(self, *words: str) -> tuple[int, str, str]:
        """The status and what is written, where standard output is a file."""
        with open(self.top / "out", "w", encoding="ascii") as out:
            ran = subprocess.run([self.top / "bin/bash", "./ice", *words], cwd=self.top, env=self.where, stdout=out, stderr=subprocess.PIPE, text=True, check=False)
        return ran.returncode, (self.top / "out").read_text(), ran.stderr

    def test_words_help_and_version(self) -> None:
        self.assertEqual(self.run_it("--version"), (0, "ice 0.1, commit 0123abc, kit rattle-kit-13f; reads files of versions 1 and 2\n", ""))
        status, said, _ = self.run_it("--help")
        self.assertEqual((status, "usage: ice run" in said, "ice-unproved" in said), (0, True, False))
        self.assertIn("usage: ice gap JOURNAL", self.run_it("gap", "--help")[1])
        status, said, words = self.run_it("run", "m.json")
        self.assertEqual((status, said, words), (2, "refused 1 13 bidders.0\n", "ice: m.json is refused: bidders.0: not a lawful name: 1 to 32 of A-Z a-z 0-9 _ - . (number 13)\n"))
        self.program('#!/bin/sh\necho "settle 2"\necho "regret 0"\necho "threshold 5/2 1/3"\necho "end closed"\n')
        self.assertEqual(self.run_it("run", "m.json", "r")[2], "ice: closed after round 2: regret 0, surplus 1/3\n")
        (self.top / "s.journal").write_text("settle 0\nspent 50 65\nend spent\n")
        self.program('#!/bin/sh\n[ "$1" != gap ] || { echo "gap final 50 65"; exit 0; }\necho "no 2 closed"\nexit 3\n')
        status, said, words = self.run_it("check", "s.journal")
        self.assertEqual((status, said), (3, "no 2 closed\n"))
        self.assertEqual(words, "ice: s.journal is right as far as it goes, to line 2: it closes nothing, and ends with `end spent`; the gap is checked: `gap final 50 65`\n")
        self.program("#!/bin/sh\nkill -9 $$\n")
        self.assertEqual(self.run_it("check", "j")[0], 137)

    def test_a_file_of_its_own_wants_tools(self) -> None:
        self.program("#!/bin/sh\necho yes 0\n")
        self.assertEqual(self.run_it("check", "j", "-o", "kept"), (7, "", "ice: kept could not be written\n"))
        for name in TOOLS.split():
            self.tool(name)
        self.assertEqual(self.run_it("check", "j", "-o", "kept"), (0, "", ""))
        self.assertEqual((self.top / "kept").read_text(), "yes 0\n")

    def test_a_program_that_does_not_run(self) -> None:
        self.program("#!/absent/program\n")
        status, said, words = self.run_it("check", "j")
        self.assertEqual((status, said, "can't be run here" in words), (70, "", True))
        (self.top / "ice_cli").unlink()
        status, said, words = self.run_it("check", "j")
        self.assertEqual((status, said, "doesn't stand beside" in words), (70, "", True))

    def completed(self, *words: str) -> list[str]:
        """What is offered for the last of these words."""
        script = '. launch/complete.bash; COMP_WORDS=("$@"); COMP_CWORD=$(($# - 1)); _ice; printf "%s\\n" "${COMPREPLY[@]}"'
        ran = subprocess.run([self.top / "bin/bash", "-c", script, "bash", "./ice", *words], cwd=self.top, env=self.where, capture_output=True, text=True, timeout=60, check=False)
        return sorted(ran.stdout.split())

    def test_completion(self) -> None:
        texts = {"a.json": '{"bids": []}', "a.journal": "ice 2 session\nbidder Anna 1\nbidder Otto 1\nsettle 0\nbidder Eve 1\nsettle 1\n", "a.statement": "statement a\nsettings 1\n", "a.market": '{"goods": []}'}
        for name, text in texts.items():
            (self.top / name).write_text(text)
        for words, offered in {
            ("re",): ["regret", "replay"],
            ("check", "a"): ["a.journal"],
            ("audit", "a"): ["a.statement"],
            ("run", "a"): ["a.market"],
            ("run", "a.market", "a"): ["a.json"],
            ("--quiet", "run", "-o", "x", "a.market", "a"): ["a.json"],
            ("best", "a.market", "a"): sorted(texts),
            ("statement", "a.journal", ""): ["Anna", "Otto"],
            ("statement", "a.journal", "O"): ["Otto"],
            ("replay", "a.journal", ""): ["0", "1"],
            ("check", "--q"): ["--quiet"],
        }.items():
            self.assertEqual(self.completed(*words), offered, words)

    def test_completion_reads_long_files_in_pieces(self) -> None:
        journal = self.top / "a.journal"
        head = "ice 2 session\nsettle 0\n" + ("x" * 4_095 + "\n") * 7
        for before in range(32_757, 32_770):  # the first piece ends before, in or behind the record of the second settlement
            journal.write_text(head + "x" * (before - len(head)) + "\nsettle 1\nthreshold 1\nsettle 2\n")
            self.assertEqual(self.completed("replay", "a.journal", ""), ["0", "1"], before)
        journal.write_text("ice 2 session\nsettle 0\n" + "x" * 8_192 + "\nsettle 1\n" + "x" * 8_193 + "\nsettle 2\n")
        self.assertEqual(self.completed("replay", "a.journal", ""), ["0", "1"])

    def test_completion_ends_at_a_line_that_is_no_record(self) -> None:
        (self.top / "a.journal").write_text("ice 2 session\nsettle 0\n" + "x" * 5_000_000 + "\nsettle 1\n")
        self.assertEqual(self.completed("replay", "a.journal", ""), ["0"])


if __name__ == "__main__":
    unittest.main()
