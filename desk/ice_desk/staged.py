"""Files that are made aside and put into their folder together, or not at all."""
from __future__ import annotations

import os
import shutil
import tempfile
from pathlib import Path
from typing import Iterable

from .stop import REFUSED, Stop, unwritten


class Staged:
    """Files of a folder that are made in a room inside it, and then take the places of older ones.

    `kept` are files that nothing may be written over, such as those that were read.
    """

    def __init__(self, folder: Path, kept: Iterable[Path]) -> None:
        self.folder = folder
        self.kept = {self.spelled(path) for path in kept}
        self.names: dict[str, str] = {}
        self.room = Path(tempfile.mkdtemp(prefix=".ice-round-", dir=folder))

    def __enter__(self) -> Staged:
        return self

    def __exit__(self, *_: object) -> None:
        shutil.rmtree(self.room, ignore_errors=True)

    @staticmethod
    def spelled(path: Path) -> str:
        """A path as one that tells no capitals from small letters has it."""
        return str(path.resolve()).casefold()

    def path(self, name: str) -> Path:
        """Where the file of this name is made; Stop where another one has its place."""
        spelled = self.spelled(self.folder / name)
        if spelled in self.kept:
            raise Stop(REFUSED, f"{name} would be written over a file that is read")
        if self.names.setdefault(spelled, name) != name:
            raise Stop(REFUSED, f"{name} and {self.names[spelled]} would be one file")
        path = self.room / "new" / name
        path.parent.mkdir(parents=True, exist_ok=True)
        return path

    def put(self, name: str, data: bytes) -> None:
        """Makes a file with these bytes."""
        self.path(name).write_bytes(data)

    def place(self) -> list[str]:
        """Puts all files into the folder, and gives their names; puts all back where one fails."""
        placed: list[str] = []
        try:
            for name in self.names.values():
                self.keep(name)
            for name in self.names.values():
                (self.folder / name).parent.mkdir(parents=True, exist_ok=True)
                os.replace(self.room / "new" / name, self.folder / name)
                placed.append(name)
        except BaseException as fault:
            for name in placed:
                self.put_back(name)
            if isinstance(fault, OSError):
                raise unwritten(fault, self.folder) from None
            raise
        return placed

    def keep(self, name: str) -> None:
        """Keeps the file that has the place until now."""
        there, kept = self.folder / name, self.room / "old" / name
        if there.is_file():
            kept.parent.mkdir(parents=True, exist_ok=True)
            try:
                os.link(there, kept)
            except OSError:
                shutil.copy2(there, kept)

    def put_back(self, name: str) -> None:
        """Puts back the file that had the place, or leaves it empty where there was none."""
        kept = self.room / "old" / name
        if kept.exists():
            os.replace(kept, self.folder / name)
        else:
            (self.folder / name).unlink()
