"""The programs that the desk calls: `ice`, and what stands in examples/ and page/."""
from __future__ import annotations

import os
import signal
import subprocess
import sys
import tempfile
from contextlib import contextmanager
from pathlib import Path
from typing import IO, Callable, Iterator, NamedTuple

from .stop import INTERRUPTED, Stop, plain, unread

TOP = Path(__file__).resolve().parents[2]
PROGRAM, COLLECT = TOP / "ice", TOP / "examples" / "collect.py"
DIGEST, TABLE = TOP / "page" / "ice-digest", TOP / "page" / "ice-table"
MOST_OUTPUT, MOST_LINES = 65_536, 40
MOMENT, MOST_SAID = 0.5, 400
SIGNALS = (signal.SIGTERM, signal.SIGHUP, signal.SIGINT)


class Ran(NamedTuple):
    """How a program ended: its status, and the front of what it wrote on its two outputs."""

    status: int
    output: str
    errors: list[str]


@contextmanager
def signals_heard() -> Iterator[None]:
    """Ends by an exception at the signals that ask for an end, so that all is left in order."""

    def end(number: int, _frame: object) -> None:
        raise Stop(INTERRUPTED + number, "interrupted: nothing was put into its place")

    before = {number: signal.signal(number, end) for number in SIGNALS}
    try:
        yield
    finally:
        for number, heard in before.items():
            signal.signal(number, heard)


def front(stream: IO[bytes]) -> str:
    """The front of a stream that was written from its start."""
    stream.seek(0)
    return stream.read(MOST_OUTPUT).decode("utf-8", "replace")


def nothing(_: str) -> None:
    """Does nothing with what a program said."""


def said_last(stream: IO[bytes]) -> str:
    """The last line of a stream, as far as it was written."""
    size = os.fstat(stream.fileno()).st_size
    end = os.pread(stream.fileno(), MOST_SAID, max(size - MOST_SAID, 0))
    lines = end.decode("utf-8", "replace").split("\n")
    return next((line for line in reversed(lines) if line), "")


def wait(
    process: subprocess.Popen[bytes], errors: IO[bytes], meanwhile: Callable[[str], None]
) -> int:
    """Waits for a program, and tells moment by moment what it said last; its status."""
    while True:
        try:
            return process.wait(MOMENT)
        except subprocess.TimeoutExpired:
            meanwhile(said_last(errors))


def run(
    *words: object, into: Path | None = None, meanwhile: Callable[[str], None] = nothing
) -> Ran:
    """Runs a program, whose standard output goes into a file where one is named."""
    with tempfile.TemporaryFile() as errors, open_output(into) as output:
        process = started(list(map(str, words)), output, errors)
        try:
            status = wait(process, errors, meanwhile)
        except BaseException:
            process.terminate()
            process.wait()
            raise
        told = [plain(line) for line in front(errors).splitlines()]
        more = [f"and {len(told) - MOST_LINES} more lines"] if len(told) > MOST_LINES else []
        return Ran(status, "" if into else front(output), told[:MOST_LINES] + more)


def started(words: list[str], output: IO[bytes], errors: IO[bytes]) -> subprocess.Popen[bytes]:
    """A program that was started; Stop where it can't be."""
    try:
        return subprocess.Popen(words, stdin=subprocess.DEVNULL, stdout=output, stderr=errors)
    except OSError as fault:
        raise unread(fault, words[0]) from None


def open_output(into: Path | None) -> IO[bytes]:
    """Where standard output goes: a file, or one without a name."""
    return tempfile.TemporaryFile() if into is None else into.open("wb")


def python(script: Path, *words: object, into: Path | None = None) -> Ran:
    """Runs a script in Python as this one runs."""
    return run(sys.executable, script, *words, into=into)


def tests_senders() -> bool:
    """Whether `collect.py` can test that a file has bids of the bidder in its name alone."""
    return "--named" in python(COLLECT, "--help").output


def whole(path: str | os.PathLike[str]) -> Path:
    """A path that no program takes for an option."""
    return Path(path).absolute()
