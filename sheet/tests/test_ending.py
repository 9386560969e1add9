"""Commands that are interrupted, or have no memory: a status and a word, and no traceback."""
import os
import resource
import signal
import subprocess
import sys
import tempfile
import unittest
from functools import partial
from pathlib import Path

from support import ROOT

COMMANDS = (["examples/collect.py", "{}", "{}"], ["examples/sheet.py", "{}"])


class Ending(unittest.TestCase):
    """Both commands."""

    def test_an_interrupt(self) -> None:
        for command in COMMANDS:
            with tempfile.TemporaryDirectory() as folder:
                pipe = Path(folder, "pipe")
                os.mkfifo(pipe)
                words = [sys.executable, *(word.format(pipe) for word in command)]
                with subprocess.Popen(
                    words,
                    cwd=ROOT,
                    stdout=subprocess.PIPE,
                    stderr=subprocess.PIPE,
                    # a shell's job in the background is deaf to it
                    preexec_fn=lambda: signal.signal(signal.SIGINT, signal.SIG_DFL),
                ) as ran:
                    # It has come to read when the pipe has a reader.
                    with open(pipe, "wb"):
                        ran.send_signal(signal.SIGINT)
                        output, errors = ran.communicate(timeout=60)
            name = Path(command[0]).stem
            self.assertEqual((ran.returncode, output), (130, b""))
            self.assertEqual(errors.decode(), f"{name}: interrupted\n")

    def test_want_of_memory(self) -> None:
        for command in COMMANDS:
            with tempfile.TemporaryDirectory() as folder:
                file = Path(folder, "file")
                file.write_bytes(b"[" + b"[[1.5]]," * 2_000_000 + b"1]")
                words = [sys.executable, *(word.format(file) for word in command)]
                limit = (100 << 20, 100 << 20)
                ran = subprocess.run(
                    words,
                    cwd=ROOT,
                    capture_output=True,
                    check=False,
                    preexec_fn=partial(resource.setrlimit, resource.RLIMIT_AS, limit),
                )
            name = Path(command[0]).stem
            told = f"{name}: want of memory: free some, and run it again\n"
            self.assertEqual((ran.returncode, ran.stderr.decode()), (8, told))


if __name__ == "__main__":
    unittest.main()
