"""The built program and its runs."""
from __future__ import annotations

import functools
import os
import resource
import signal
import subprocess
from collections.abc import Iterable, Mapping, Sequence
from dataclasses import dataclass
from functools import partial
from pathlib import Path

TESTS = Path(__file__).resolve().parents[1]
ROOT = TESTS.parent
BUILDS = ("crates/ice_cli/out/ice_cli", "crates/ice_cli/out/ice_cli.by-rattle")
SOURCES = ("src", "specs", "proofs")

# After so many seconds a run is ended, and its test fails.
SECONDS = 60.0

# Whether all is tested: every request of long runs, and the work of the longest files.
IS_ALL = os.environ.get("ICE_TESTS") == "all"

# The exit statuses of the program, by what they say.
DONE, WORDS, INPUT, NO, SPENT, LIMIT, UNREAD, WRITE_FAULT, NO_MEMORY, OPEN = range(10)


@dataclass(frozen=True)
class Ran:
    """How a run ended, and what it wrote. A status below 0 is the signal that ended it."""

    status: int
    output: bytes
    errors: bytes

    def __str__(self) -> str:
        text = self.output.decode(errors="replace")
        shown = text if len(text) <= 600 else f"{text[:300]}\n  ..\n{text[-300:]}"
        return f"status {self.status}, {len(self.output)} bytes: {shown!r} {self.errors!r}"


@dataclass(frozen=True)
class Program:
    """One build of the program."""

    path: Path

    def __str__(self) -> str:
        return self.path.name

    def run(
        self,
        words: Iterable[str | Path | bytes],
        *,
        folder: Path | None = None,
        environment: Mapping[str, str] | None = None,
        room: int | None = None,
        seconds: float = SECONDS,
    ) -> Ran:
        """Runs the program on these words, in a folder, with these variables besides its own, and
        where a room is given with so many bytes of memory besides its stack: a stack that can't
        grow ends every program by a signal."""
        ran = subprocess.run(
            [self.path, *words],
            cwd=folder,
            env={**os.environ, **(environment or {})},
            stdin=subprocess.DEVNULL,
            capture_output=True,
            timeout=seconds,
            preexec_fn=None if room is None else partial(limit, resource.RLIMIT_DATA, room),
        )
        return Ran(ran.returncode, ran.stdout, ran.stderr)

    @functools.cached_property
    def keeps_to_room(self) -> bool:
        """Whether it can be held to a room: one that watches its memory takes all at once."""
        return self.run([], room=1 << 30).status == WORDS

    def start(
        self, words: Iterable[str | Path | bytes], environment: Mapping[str, str] | None = None
    ) -> subprocess.Popen[bytes]:
        """A run that has begun, and hears signals even where those that test don't (nohup)."""
        return subprocess.Popen(
            [self.path, *words],
            env={**os.environ, **(environment or {})},
            stdin=subprocess.DEVNULL,
            stdout=subprocess.PIPE,
            stderr=subprocess.PIPE,
            bufsize=0,
            preexec_fn=hear_signals,
        )

    def stopped(
        self, words: Iterable[str | Path | bytes], environment: Mapping[str, str]
    ) -> subprocess.Popen[bytes]:
        """A run that stops itself, and is stopped now."""
        child = self.start(words, environment)
        _, how = os.waitpid(child.pid, os.WUNTRACED)
        if not os.WIFSTOPPED(how):
            child.returncode = os.waitstatus_to_exitcode(how)
            raise AssertionError(f"the run wasn't stopped: {ended(child)}")
        return child


def hear_signals() -> None:
    """Has this process, and so its program, end at the signals that a parent may have ignored."""
    for ending in (signal.SIGTERM, signal.SIGINT, signal.SIGHUP):
        signal.signal(ending, signal.SIG_DFL)


def limit(what: int, most: int) -> None:
    """Sets a limit of this process, which its program then has."""
    resource.setrlimit(what, (most, most))


def ended(child: subprocess.Popen[bytes]) -> Ran:
    """How a run ends, and what it wrote."""
    output, errors = child.communicate(timeout=SECONDS)
    return Ran(child.returncode, output, errors)


@functools.cache
def programs() -> Sequence[Program]:
    """The builds that are tested: those that ICE_PROGRAMS names, with colons between, or else the
    one that the launcher and the gate leave, and the gate's second one where it is current."""
    named = os.environ.get("ICE_PROGRAMS")
    paths = list(map(Path, named.split(":"))) if named else [ROOT / path for path in BUILDS]
    first, *others = paths
    for path in paths if named else [first]:
        if not path.exists():
            raise RuntimeError(
                f"no program at {path}: build it by ./ice check FILE, or name one in ICE_PROGRAMS"
            )
    if not named:
        if changed := newer_source(first):
            raise RuntimeError(f"{changed} is newer than the program: build it anew")
        others = [path for path in others if path.exists() and not newer_source(path)]
    return [Program(path.resolve()) for path in (first, *others)]


def newer_source(program: Path) -> Path | None:
    """A source that was changed after the program was built."""
    built = program.stat().st_mtime
    for part in SOURCES:
        for path in ROOT.glob(f"crates/*/{part}/**/*"):
            if path.is_file() and path.stat().st_mtime > built:
                return path
    return None
