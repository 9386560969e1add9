"""A tab of a headless Chromium, in which a test runs scripts, as a person who waits would see them.

It is spoken to over two pipes, so that it asks nothing of a network.
"""
from __future__ import annotations

import json
import os
import select
import shutil
import signal
import subprocess
import tempfile
import time
import unittest
from pathlib import Path
from typing import Any

NAMES = ("chromium", "chromium-browser")
CHROMIUM: str | None = next(filter(None, map(shutil.which, NAMES)), None)
FLAGS: tuple[str, ...] = ("--headless", "--no-sandbox", "--disable-gpu", "--remote-debugging-pipe")
TRIES, START_PATIENCE, PATIENCE = 2, 30.0, 120.0


class Hung(Exception):
    """The browser didn't answer in time."""


class Tab:
    """A tab in a browser of its own, until it is closed."""

    def __init__(self) -> None:
        for _ in range(TRIES):
            self.start()
            try:
                made = self.ask("Target.createTarget", START_PATIENCE, url="about:blank")
                held = self.ask("Target.attachToTarget", targetId=made["targetId"], flatten=True)
                self.session = held["sessionId"]
                return
            except Hung:
                # On a machine with too much to do it may hang as it starts.
                self.close()
        raise unittest.SkipTest(f"{CHROMIUM} didn't answer in {START_PATIENCE} s, {TRIES} times")

    def start(self) -> None:
        """Starts the browser."""
        assert CHROMIUM is not None
        self.folder = tempfile.TemporaryDirectory(ignore_cleanup_errors=True)
        theirs, self.output = os.pipe()
        self.input, answers = os.pipe()
        command: list[str] = [CHROMIUM, *FLAGS, f"--user-data-dir={self.folder.name}", "about:blank"]
        # Chromium reads from 3 and writes to 4, whatever numbers the pipes have here.
        places = f'exec "$@" 3<&{theirs} 4>&{answers}'
        self.process = subprocess.Popen(
            ["bash", "-c", places, "bash", *command],
            pass_fds=(theirs, answers),
            stdout=subprocess.DEVNULL,
            stderr=subprocess.DEVNULL,
            start_new_session=True,
        )
        os.close(theirs)
        os.close(answers)
        self.left, self.count, self.session = b"", 0, ""

    def close(self) -> None:
        """Ends the browser, with all its processes."""
        os.killpg(self.process.pid, signal.SIGKILL)
        self.process.wait()
        os.close(self.output)
        os.close(self.input)
        self.folder.cleanup()

    def show(self, page: Path) -> None:
        """Loads a page."""
        self.ask("Page.navigate", url=page.as_uri())
        self.wait("document.readyState === 'complete' && location.protocol === 'file:'")

    def ask(self, method: str, patience: float = PATIENCE, **parameters: Any) -> dict[str, Any]:
        """What the browser answers to a request; Hung where that takes too long."""
        self.count += 1
        request = {"id": self.count, "method": method, "params": parameters}
        if self.session:
            request["sessionId"] = self.session
        left = json.dumps(request).encode() + b"\0"
        while left:
            left = left[os.write(self.output, left) :]
        while True:
            answer = self.message(patience)
            if answer.get("id") == self.count:
                assert "result" in answer, answer
                found: dict[str, Any] = answer["result"]
                return found

    def message(self, patience: float) -> dict[str, Any]:
        """The next message of the browser."""
        while b"\0" not in self.left:
            if not select.select([self.input], [], [], patience)[0]:
                raise Hung
            piece = os.read(self.input, 1 << 16)
            assert piece, "the browser has ended"
            self.left += piece
        message, _, self.left = self.left.partition(b"\0")
        found: dict[str, Any] = json.loads(message)
        return found

    def run(self, script: str) -> Any:
        """The value of a script."""
        found = self.ask("Runtime.evaluate", expression=script, returnByValue=True)
        assert "exceptionDetails" not in found, found
        return found["result"].get("value")

    def wait(self, script: str) -> None:
        """Waits until the value of a script is true."""
        end = time.monotonic() + PATIENCE
        while not self.run(script):
            assert time.monotonic() < end, f"never true: {script}"
            time.sleep(0.05)

    def choose(self, input_: str, file: Path) -> None:
        """Chooses a file in the input of this identity."""
        script = f"document.getElementById('{input_}')"
        found = self.ask("Runtime.evaluate", expression=script)["result"]
        self.ask("DOM.setFileInputFiles", objectId=found["objectId"], files=[str(file)])
