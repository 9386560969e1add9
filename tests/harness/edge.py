"""Faults at the program's edge, by a file in C that is loaded before the C library."""
from __future__ import annotations

import atexit
import functools
import shutil
import subprocess
import tempfile
import unittest
from collections.abc import Mapping, Sequence
from dataclasses import dataclass
from pathlib import Path

SOURCE = Path(__file__).with_name("faults.c")


@functools.cache
def library() -> Path:
    """The compiled file. Where there is no C compiler, the test that wants it is skipped."""
    compiler = shutil.which("cc")
    if compiler is None:
        raise unittest.SkipTest("there is no cc, and so no write or request that fails")
    folder = tempfile.mkdtemp(prefix="ice-faults-")
    atexit.register(shutil.rmtree, folder)
    made = Path(folder, "faults.so")
    subprocess.run([compiler, "-shared", "-fPIC", "-O1", "-o", made, SOURCE, "-ldl"], check=True)
    return made


def edge(**variables: int | Path) -> Mapping[str, str]:
    """The environment in which the program meets these faults: `fail_write=3`, say. The words are
    those of faults.c."""
    words = {f"ICE_{name.upper()}": str(value) for name, value in variables.items()}
    return {"LD_PRELOAD": str(library()), **words}


@dataclass(frozen=True)
class Counts:
    """How often a run asked for memory, read and wrote."""

    requests: int
    reads: int
    writes: int


def counts(file: Path) -> Counts:
    """What a run with `counts=file` has counted."""
    return Counts(*map(int, file.read_text().split()))


@dataclass(frozen=True)
class Held:
    """The bytes of memory that a run holds as it writes, and those that it writes."""

    memory: int
    written: int


def held(file: Path) -> Sequence[Held]:
    """What a run with `held=file` has told, write by write."""
    return [Held(*map(int, line.split())) for line in file.read_text().splitlines()]
