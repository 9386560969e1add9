"""Tests that a program ends when its launcher does, with a stand-in that runs for a minute."""
from __future__ import annotations

import os
import pathlib
import pty
import shutil
import signal
import subprocess
import tempfile
import time
import unittest
from functools import partial
from typing import Any, Callable

TOP = pathlib.Path(__file__).resolve().parent.parent.parent
PROGRAM = '#!/bin/sh\necho $$ >"$RUNS.new"\nmv "$RUNS.new" "$RUNS"\nexec sleep 60\n'
STATUSES = {signal.SIGTERM: 143, signal.SIGINT: 130, signal.SIGHUP: 129}


def heeded() -> None:
    """A shell's job in the background is deaf to some signals, and the tests may be one."""
    for each in STATUSES:
        signal.signal(each, signal.SIG_DFL)


class Ending(unittest.TestCase):
    """Each test has a checkout with a program that counts as built, and a stand-in for rt."""

    def setUp(self) -> None:
        self.top = pathlib.Path(tempfile.mkdtemp(prefix="launch-"))
        self.addCleanup(shutil.rmtree, self.top)
        for name in ("ice", "ice-unproved"):
            shutil.copy(TOP / name, self.top)
        shutil.copytree(TOP / "launch", self.top / "launch")
        for part in ("src", "specs", "proofs", "out"):
            (self.top / "crates/ice_cli" / part).mkdir(parents=True)
        (self.top / "crates.txt").write_text("ice_cli:\n")
        for file in (self.top / "rt", self.top / "crates/ice_cli/out/ice_cli"):
            file.write_text(PROGRAM)
            file.chmod(0o755)
        (self.top / "temporary").mkdir()
        self.runs = self.top / "runs"
        self.where = {
            **os.environ,
            "RUNS": str(self.runs),
            "TMPDIR": str(self.top / "temporary"),
            "PATH": f"{self.top}:{os.environ['PATH']}",
        }

    def started(self) -> int:
        """The number of the program, when it runs."""
        self.wait_for(self.runs.exists)
        number = int(self.runs.read_text())
        self.assertTrue(self.is_there(number))
        self.runs.unlink()
        return number

    def wait_for(self, test: Callable[[], bool]) -> None:
        """Waits until a test holds, for up to half a minute."""
        for _ in range(600):
            if test():
                return
            time.sleep(0.05)
        self.fail("it takes too long")

    def is_there(self, number: int) -> bool:
        """Whether a process runs: one that has ended may still wait for its parent."""
        try:
            state = pathlib.Path(f"/proc/{number}/stat").read_text().rpartition(")")[2].split()[0]
        except OSError:
            return False
        return state not in "ZX"

    def is_gone(self, number: int) -> bool:
        """Whether a process has ended."""
        return not self.is_there(number)

    def launched(self, name: str, **how: Any) -> subprocess.Popen[str]:
        """A launcher that runs the program."""
        words = [f"./{name}", "run", "market.json"]
        how = {"stderr": subprocess.DEVNULL, "stdin": subprocess.DEVNULL, **how}
        return subprocess.Popen(words, cwd=self.top, env=self.where, preexec_fn=heeded, **how)

    def test_a_signal_ends_both_with_the_status_of_a_shell(self) -> None:
        for name, number in [*(("ice", each) for each in STATUSES), ("ice-unproved", signal.SIGTERM)]:
            with open(self.top / "out", "w", encoding="ascii") as out:
                for to in (subprocess.PIPE, out)[: 1 if number == signal.SIGHUP else 2]:
                    with self.launched(name, stdout=to) as launcher:
                        program = self.started()
                        launcher.send_signal(number)
                        self.assertEqual(launcher.wait(30), STATUSES[number], (name, number))
                    self.assertFalse(self.is_there(program))
        self.assertEqual(list((self.top / "temporary").iterdir()), [])

    def test_the_time_out_of_a_caller_leaves_nothing_behind(self) -> None:
        for name in ("ice", "ice-unproved"):
            with self.launched(name, stdout=subprocess.PIPE) as launcher:
                program = self.started()
                launcher.kill()
                launcher.communicate(timeout=30)
            self.wait_for(partial(self.is_gone, program))
            self.wait_for(lambda: not list((self.top / "temporary").iterdir()))

    def test_a_gap_that_is_asked_ends_too(self) -> None:
        (self.top / "j").write_text("settle 0\nspent 50 65\nend spent\n")
        file = self.top / "crates/ice_cli/out/ice_cli"
        file.write_text(PROGRAM.replace("\n", '\n[ "$1" = gap ] || { echo "no 2 closed"; exit 3; }\n', 1))
        for number in (signal.SIGTERM, signal.SIGKILL):
            with open(self.top / "out", "w", encoding="ascii") as out:
                with subprocess.Popen(["./ice", "check", "j"], cwd=self.top, env=self.where, preexec_fn=heeded, stdout=out) as launcher:
                    program = self.started()
                    launcher.send_signal(number)
                    self.assertEqual(launcher.wait(30), STATUSES.get(number, -number))
            self.wait_for(partial(self.is_gone, program))

    def test_an_interrupt_at_a_terminal(self) -> None:
        child, terminal = pty.fork()
        if child == 0:
            heeded()
            os.chdir(self.top)
            os.execve("./ice", ["./ice", "run", "market.json"], self.where)
        program = self.started()
        os.write(terminal, b"\x03")
        ended = os.waitpid(child, 0)[1]
        os.close(terminal)
        self.assertEqual(os.waitstatus_to_exitcode(ended), 130)
        self.assertFalse(self.is_there(program))

    def test_what_is_not_proved_gives_its_answer_and_its_status(self) -> None:
        (self.top / "rt").write_text('#!/bin/sh\necho "no 7 $6"\necho "run=ended status=3 proved=no" >&2\n')
        ran = subprocess.run(["./ice-unproved", "check", "j"], cwd=self.top, env=self.where, capture_output=True, text=True, check=False)
        self.assertEqual((ran.returncode, ran.stdout), (3, f"no 7 {self.top}/j\n"), ran.stderr)
        (self.top / "rt").write_text('#!/bin/sh\necho "run=none proved=no" >&2\nexit 1\n')
        ran = subprocess.run(["./ice-unproved", "check", "j"], cwd=self.top, env=self.where, capture_output=True, text=True, check=False)
        self.assertEqual((ran.returncode, "run=none proved=no" in ran.stderr), (70, True), ran.stderr)
        self.assertEqual(list((self.top / "temporary").iterdir()), [])

    def test_the_program_reads_standard_input(self) -> None:
        file = self.top / "crates/ice_cli/out/ice_cli"
        file.write_text("#!/bin/sh\ncat\n")
        for redirect, wanted in (("<in", "said\n"), ("</dev/null", ""), ("<&-", "")):
            (self.top / "in").write_text("said\n")
            script = f"./ice check /dev/stdin {redirect}"
            ran = subprocess.run(["bash", "-c", script], cwd=self.top, env=self.where, capture_output=True, text=True, check=False)
            self.assertEqual((ran.returncode, ran.stdout), (0, wanted), (redirect, ran.stderr))


if __name__ == "__main__":
    unittest.main()
