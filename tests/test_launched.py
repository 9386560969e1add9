"""A signal to the launcher ends the built program that runs behind it, and leaves whole lines."""
from __future__ import annotations

import json
import shutil
import signal
import subprocess
import tempfile
import time
import unittest
from collections.abc import Callable
from pathlib import Path

from harness.program import ROOT, hear_signals, programs

# A market whose first search takes far longer than a test.
MARKET = ("units", "5", "1")
# The statuses that a shell gives to what these signals end.
STATUSES = {signal.SIGTERM: 143, signal.SIGINT: 130, signal.SIGHUP: 129}


def runs_of(file: Path) -> list[int]:
    """The processes that run this file, but for those that have ended and are still listed."""
    found = []
    for folder in Path("/proc").iterdir():
        try:
            if folder.name.isdigit() and (folder / "exe").resolve(strict=True) == file:
                found.append(int(folder.name))
        except OSError:
            continue
    return found


class Launched(unittest.TestCase):
    """Each test goes over all builds, in a folder that has been handed on: no rt is looked for."""

    def setUp(self) -> None:
        folder = tempfile.TemporaryDirectory()
        self.addCleanup(folder.cleanup)
        self.top = Path(folder.name).resolve()
        shutil.copy(ROOT / "ice", self.top)
        shutil.copytree(ROOT / "launch", self.top / "launch")
        market = self.top / "market.json"
        draws = [str(ROOT / "bench/market"), *MARKET, str(market), str(self.top / "truths.json")]
        subprocess.run(draws, check=True, stderr=subprocess.DEVNULL)
        exchange = json.loads(market.read_text())
        exchange["settings"]["rounds"] = 0
        market.write_text(json.dumps(exchange))

    def wait_for(self, holds: Callable[[], bool], what: str) -> None:
        """Waits until something holds, for up to half a minute."""
        for _ in range(600):
            if holds():
                return
            time.sleep(0.05)
        self.fail(what)

    def runs(self) -> int:
        """How many processes run the program."""
        return len(runs_of(self.top / "ice_cli"))

    def test_a_signal_ends_launcher_and_program(self) -> None:
        for program in programs():
            shutil.copy(program.path, self.top / "ice_cli")
            for number, status in STATUSES.items():
                for goes_to in ("pipe", "file"):
                    with self.subTest(program=str(program), signal=number.name, output=goes_to):
                        self.assert_ends(number, status, goes_to)

    def assert_ends(self, number: signal.Signals, status: int, goes_to: str) -> None:
        """Runs the launcher into a pipe or a file, and ends it when its first line can be read."""
        journal = self.top / "journal"
        with open(journal, "wb") as file:
            launcher = subprocess.Popen(
                ["./ice", "run", "market.json"],
                cwd=self.top,
                stdin=subprocess.DEVNULL,
                stdout=file if goes_to == "file" else subprocess.PIPE,
                stderr=subprocess.DEVNULL,
                preexec_fn=hear_signals,
            )
        first = launcher.stdout.readline() if launcher.stdout else b""
        if not first:
            self.wait_for(lambda: journal.stat().st_size > 0, "nothing is written")
        self.wait_for(lambda: self.runs() == 1, "the program doesn't run")
        launcher.send_signal(number)
        self.assertEqual(launcher.wait(30), status)
        self.wait_for(lambda: self.runs() == 0, "the program runs on")
        text = journal.read_bytes()
        if launcher.stdout:
            text = first + launcher.stdout.read()
            launcher.stdout.close()
        self.assertTrue(text.startswith(b"ice 2 session\n"), text[:60])
        self.assertTrue(text.endswith(b"\n"), text[-60:])


if __name__ == "__main__":
    unittest.main()
