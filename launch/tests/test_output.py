"""Tests of where the answer goes: a terminal, with its line that is written over, the file of -o, a pipe; with stand-ins."""
from __future__ import annotations

import os
import pathlib
import pty
import re
import shutil
import signal
import stat
import subprocess
import tempfile
import time
import unittest
from typing import Callable

TESTS = pathlib.Path(__file__).resolve().parent
TOP = TESTS.parent.parent
BEGUN = "ice 2 session\nsettings 50 0 9 0 5 100\nbidder a 1\nbidder b 1\nsettle 1\nfinal 8\nbranch 0 1\nbranch 0 2\n"
CLOSED = f"{BEGUN}rival 8\nregret 0\nwithout 0 7\nbranch 0 1\nthreshold 5/2 1/3\nend closed\n"
TOTALS = "total 8, 3 of 100 branches, "
SLOW = """#!/bin/bash
echo "$$" >"$RUNS"
head -n 8 "$ANSWER"
printf 'rival'
for ((it = 0; it < 100; it++)); do [ ! -e "$GOES_ON" ] || break; sleep 0.2; done
tail -n +9 "$ANSWER" | sed '1s/^rival//'
exit "$STATUS"
"""


class Output(unittest.TestCase):
    """Each test has a checkout with a program that counts as built."""

    def setUp(self) -> None:
        self.top = pathlib.Path(tempfile.mkdtemp(prefix="launch-"))
        self.addCleanup(shutil.rmtree, self.top)
        for name in ("ice", "ice-unproved"):
            shutil.copy(TOP / name, self.top)
        shutil.copytree(TOP / "launch", self.top / "launch")
        for part in ("src", "specs", "proofs", "out"):
            (self.top / "crates/ice_cli" / part).mkdir(parents=True)
        (self.top / "crates.txt").write_text("ice_cli:\n")
        self.program((TESTS / "program").read_text())
        (self.top / "answer").write_text(CLOSED)
        (self.top / "temporary").mkdir()
        self.where = {**os.environ, "LC_ALL": "C.UTF-8", "TMPDIR": str(self.top / "temporary")}
        self.where.update({name: str(self.top / name.lower()) for name in ("ANSWER", "RUNS", "GOES_ON")}, STATUS="0")

    def program(self, text: str) -> None:
        """Puts this program in its place."""
        file = self.top / "crates/ice_cli/out/ice_cli"
        file.write_text(text)
        file.chmod(0o755)

    def run_it(self, *words: str, status: int = 0, answer: str = CLOSED) -> tuple[int, str, str]:
        """The status, and what standard output and standard error get where they are pipes."""
        (self.top / "answer").write_text(answer)
        ran = subprocess.run(["./ice", *words], cwd=self.top, env={**self.where, "STATUS": str(status)}, capture_output=True, text=True, check=False)
        self.assertEqual(list((self.top / "temporary").iterdir()), [])
        self.assertEqual(list(self.top.glob(".ice-*")), [])
        return ran.returncode, ran.stdout, ran.stderr

    def on_terminal(self, *words: str, until: str = "", to: str = "", kill: int = 0) -> tuple[int, str]:
        """The status of a run at a terminal, and what it shows there; when it shows a text the program goes on, or it is killed."""
        child, terminal = pty.fork()
        if child == 0:
            os.chdir(self.top)
            for each in (signal.SIGTERM, signal.SIGINT, signal.SIGHUP):
                signal.signal(each, signal.SIG_DFL)
            if to:
                os.dup2(os.open(to, os.O_WRONLY | os.O_CREAT | os.O_TRUNC), 1)
            os.execve("./ice", ["./ice", *words], self.where)
        read = b""
        while True:
            try:
                piece = os.read(terminal, 65536)
            except OSError:
                break
            if not piece:
                break
            read += piece
            if until and until.encode() in read:
                until = ""
                if kill:
                    os.kill(child, kill)
                else:
                    (self.top / "goes_on").touch()
        ended = os.waitpid(child, 0)[1]
        os.close(terminal)
        self.assertEqual(list((self.top / "temporary").iterdir()), [])
        return os.waitstatus_to_exitcode(ended), read.decode()

    def left(self, shown: str) -> str:
        """What is left on a terminal when its line has been written over."""
        return re.sub(r"(\r[^\r\n]+)+\r(?!\n)", "", shown).replace("\r\n", "\n")

    def test_a_terminal_gets_the_journal_the_line_and_the_totals(self) -> None:
        self.program(SLOW)
        status, shown = self.on_terminal("run", "m", "r1", until="of 100 branches")
        self.assertEqual(status, 0)
        self.assertRegex(shown, r"\rice: run: settlement 1, rival, 2 of 100 branches, [0-9]+ s")
        self.assertIn("branch 0 2\r\n\rice: run: settlement 1", shown)  # a part of a line is never shown alone
        self.assertRegex(self.left(shown), f"^{re.escape(CLOSED)}ice: closed after round 1: regret 0, surplus 1/3, {TOTALS}[0-9]+ s\n$")

    def test_a_file_gets_the_journal_and_the_terminal_the_line(self) -> None:
        self.program(SLOW)
        status, shown = self.on_terminal("run", "m", "r1", until="of 100 branches", to="out")
        self.assertEqual((status, (self.top / "out").read_text()), (0, CLOSED))
        self.assertIn("settlement 1, rival, 2 of 100 branches", shown)
        self.assertRegex(self.left(shown), f"^ice: closed after round 1: regret 0, surplus 1/3, {TOTALS}[0-9]+ s\n$")

    def test_an_interrupt_takes_the_line_away(self) -> None:
        self.program(SLOW)
        for words in (("run", "m"), ("run", "m", "-o", "kept")):
            (self.top / "kept").write_text("before\n")
            (self.top / "goes_on").unlink(missing_ok=True)
            status, shown = self.on_terminal(*words, until="of 100 branches", kill=signal.SIGTERM)
            self.assertEqual(status, 143)
            self.assertEqual(self.left(shown), "" if "-o" in words else f"{BEGUN}rival")  # what was written is all shown
            self.assertEqual(((self.top / "kept").read_text(), list(self.top.glob(".ice-*"))), ("before\n", []))

    def test_what_is_quiet_says_nothing(self) -> None:
        self.program(SLOW)
        (self.top / "goes_on").touch()
        status, shown = self.on_terminal("--quiet", "run", "m", "r1")
        self.assertEqual((status, shown.replace("\r\n", "\n")), (0, CLOSED))
        self.program((TESTS / "program").read_text())
        self.assertEqual(self.run_it("run", "m", "--quiet", status=9), (9, CLOSED, ""))
        self.assertEqual(self.run_it("chek", "--quiet", status=1, answer="words refused\n"), (1, "words refused\n", ""))

    def test_a_file_of_its_own(self) -> None:
        status, out, err = self.run_it("run", "m", "r1", "-o", "kept")
        self.assertEqual((status, out, (self.top / "kept").read_text()), (0, "", CLOSED))
        self.assertRegex(err, f"^ice: closed after round 1: regret 0, surplus 1/3, {TOTALS}[0-9]+ s\n$")
        for status in (9, 4, 5):
            self.assertEqual(self.run_it("-o", "kept", "run", "m", status=status, answer=f"{BEGUN}{status}\n")[:2], (status, ""))
            self.assertEqual((self.top / "kept").read_text(), f"{BEGUN}{status}\n")
        (self.top / "kept").chmod(0o640)
        (self.top / "link").symlink_to("kept")
        self.run_it("run", "m", "-o", "link")
        self.assertEqual((stat.S_IMODE((self.top / "kept").stat().st_mode), (self.top / "link").is_symlink()), (0o640, True))
        self.assertEqual((self.top / "kept").read_text(), CLOSED)
        for status, last in ((2, "refused 2 2 bids.0"), (3, "no 7 above"), (6, "unread 2"), (1, "words refused")):
            self.assertEqual(self.run_it("run", "m", "r", "-o", "kept", status=status, answer=f"{BEGUN}{last}\n")[:2], (status, f"{last}\n"))
            self.assertEqual((self.top / "kept").read_text(), CLOSED)
        self.assertEqual(self.run_it("run", "m", "-o", "kept", status=8, answer=BEGUN)[:2], (8, ""))
        self.assertEqual((self.top / "kept").read_text(), CLOSED)

    def test_a_file_that_cannot_be(self) -> None:
        self.assertEqual(self.run_it("run", "m", "-o", "absent/kept"), (7, "", "ice: absent/kept could not be written\n"))
        self.assertEqual(self.run_it("run", "m", "-o", "launch"), (7, "", "ice: launch could not be written\n"))
        self.assertEqual(self.run_it("run", "m", "-o"), (1, "", "ice: -o takes the name of a file\n"))
        self.assertEqual(self.run_it("run", "m", "-o", "/dev/null")[:2], (0, ""))

    def test_words_behind_two_dashes(self) -> None:
        self.program('#!/bin/sh\nprintf "%s\\n" "$@"\n')
        self.assertEqual(self.run_it("statement", "j", "--", "-o", "--quiet")[1], "statement\nj\n-o\n--quiet\n")
        self.assertEqual(self.run_it("--quiet", "statement", "j", "a")[1], "statement\nj\na\n")

    def test_a_caller_that_kills_leaves_no_file(self) -> None:
        self.program(SLOW)
        with subprocess.Popen(["./ice", "run", "m", "-o", "kept"], cwd=self.top, env=self.where, stderr=subprocess.DEVNULL) as launcher:
            self.wait_for((self.top / "runs").exists)
            launcher.kill()
        self.wait_for(lambda: not list(self.top.glob(".ice-*")))
        self.assertFalse((self.top / "kept").exists())

    def test_what_is_not_proved_takes_them_too(self) -> None:
        (self.top / "rt").write_text('#!/bin/sh\necho "yes 0"\necho "run=ended status=0 proved=no" >&2\n')
        (self.top / "rt").chmod(0o755)
        where = {**self.where, "PATH": f"{self.top}:{os.environ['PATH']}"}
        ran = subprocess.run(["./ice-unproved", "check", "j", "-o", "kept", "--quiet"], cwd=self.top, env=where, capture_output=True, text=True, check=False)
        self.assertEqual((ran.returncode, ran.stdout, ran.stderr, (self.top / "kept").read_text()), (0, "", "", "yes 0\n"))

    def wait_for(self, test: Callable[[], bool]) -> None:
        """Waits until a test holds, for up to a minute."""
        for _ in range(1200):
            if test():
                return
            time.sleep(0.05)
        self.fail("it takes too long")


if __name__ == "__main__":
    unittest.main()
