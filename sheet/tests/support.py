"""What the tests share: the commands, run in this process on files that are written for them."""
from __future__ import annotations

import contextlib
import io
import json
import os
import sys
import tempfile
from pathlib import Path
from typing import Any, Callable, Iterator

HERE = Path(__file__).resolve().parent
ROOT = HERE.parents[1]
sys.dont_write_bytecode = True
sys.path.insert(0, str(HERE.parent))

from ice_sheet import collecting, command  # noqa: E402

SETTINGS = {
    "weight": 50,
    "close_regret": 0,
    "cap": 100,
    "improve": 10,
    "rounds": 5,
    "branches": 1000,
}


@contextlib.contextmanager
def room() -> Iterator[Path]:
    """A new folder to work in, which is left and removed in the end."""
    before = Path.cwd()
    with tempfile.TemporaryDirectory() as folder:
        os.chdir(folder)
        try:
            yield Path(folder)
        finally:
            os.chdir(before)


Command = Callable[[list[str]], int]


def run(main: Command, files: dict[str, Any], *words: str) -> tuple[int, str, str]:
    """Runs a command in a folder with these files: the status, and both outputs.

    A file is bytes, a text, or a value that is written as JSON.
    """
    output, errors = io.StringIO(), io.StringIO()
    with room():
        for name, value in files.items():
            data = value if isinstance(value, (bytes, str)) else json.dumps(value)
            Path(name).write_bytes(data if isinstance(data, bytes) else data.encode())
        with contextlib.redirect_stdout(output), contextlib.redirect_stderr(errors):
            try:
                status = main(list(words))
            except SystemExit as end:
                status = int(end.code or 0)
    return status, output.getvalue(), errors.getvalue()


def sheet(table: str | bytes, *words: str, **files: Any) -> tuple[int, Any, list[str]]:
    """Runs `sheet` on a table: the status, the file that it writes, and lines of standard error."""
    named = {f"{name}.json": value for name, value in files.items()}
    status, output, errors = run(command.main, {"t.csv": table, **named}, "t.csv", *words)
    lines = [line.removeprefix("sheet: ") for line in errors.splitlines()]
    return status, json.loads(output) if output else None, lines


def market(table: str | bytes) -> tuple[int, Any, list[str]]:
    """The same, for flat bids with some settings."""
    return sheet(table, "--settings", "s.json", s=SETTINGS)


def collect(files: dict[str, Any], *words: str) -> tuple[int, Any, list[str]]:
    """Runs `collect` in the same way."""
    status, output, errors = run(collecting.main, files, *words)
    lines = [line.removeprefix("collect: ") for line in errors.splitlines()]
    return status, json.loads(output) if output else None, lines
