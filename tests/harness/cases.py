"""Cases as tables have them: words and files, and what the program must write of them.

A table is a file in TOML, a list of `[[case]]`. README.md beside this package says what a case may
have.
"""
from __future__ import annotations

import re
import tomllib
from collections.abc import Iterator, Mapping, Sequence
from dataclasses import dataclass, field
from pathlib import Path
from typing import Any

from harness import program
from harness.program import TESTS, Ran

FILES = TESTS / "files"
TABLES = TESTS / "rows"

# The status that belongs to an answer, by the first words of its last line.
STATUSES = {
    "yes": program.DONE,
    "words refused": program.WORDS,
    "refused": program.INPUT,
    "no": program.NO,
    "unread": program.UNREAD,
    "end spent": program.SPENT,
    "end limit": program.LIMIT,
    "end open": program.OPEN,
}

# The records of a session whose numbers its definition leaves no choice of.
SAID = {
    *("settle", "final", "rival", "regret", "provisional", "prices", "accuracy", "verdict"),
    *("without", "threshold", "payment", "end", "refused", "unread"),
}

# A place in a file that is changed: 0 for all of it, the number of a line, or a text in it.
Place = int | str


def status_of(text: str) -> int:
    """The status that belongs to this output."""
    last = text.rstrip("\n").rsplit("\n", 1)[-1].split(" ")
    known = (STATUSES.get(" ".join(last[:count])) for count in (1, 2))
    return next((status for status in known if status is not None), program.DONE)


def ended(text: str) -> str:
    """The text, with a newline at its end, where it has none and isn't empty."""
    return text + "\n" if text and not text.endswith("\n") else text


def changed(text: str, changes: Sequence[tuple[Place, str]]) -> str:
    """The text with another one at each of these places. A line goes where it gets no text."""
    lines: list[str] = text.splitlines(keepends=True)
    for place, new in changes:
        if place == 0:
            return new
        if isinstance(place, int):
            if place > len(lines):
                raise ValueError(f"there is no line {place}")
            lines[place - 1] = ended(new)
    text = "".join(lines)
    for place, new in changes:
        if isinstance(place, str):
            if place not in text:
                raise ValueError(f"there is no text {place!r}")
            text = text.replace(place, new, 1)
    return text


@dataclass(frozen=True)
class Due:
    """What a run must write, and how it must end. What is None or empty isn't asked."""

    status: int
    outputs: tuple[str, ...] = ()  # one of these, whole
    begins: str = ""
    ends: str = ""  # the last lines
    says: str = ""  # the front of its records that leave no choice
    counts: Mapping[str, int] = field(default_factory=dict)  # lines that fit an expression
    lines: Mapping[int, str] = field(default_factory=dict)  # lines by their numbers
    checked: str | None = None  # what `check` says of the output
    stop: str | None = None  # where `check` finds the stop: the first line that begins so

    def faults(self, ran: Ran) -> Iterator[str]:
        """What of the run isn't as it must be."""
        text = ran.output.decode("ascii", errors="replace")
        lines = text.splitlines()
        if ran.status != self.status:
            yield f"status {self.status} is due"
        if ran.errors:
            yield "standard error isn't empty"
        if self.outputs and text not in self.outputs:
            yield f"due is {' or '.join(map(repr, self.outputs))}"
        if not text.startswith(self.begins):
            yield f"it doesn't begin with {self.begins!r}"
        if self.ends and not f"\n{text}".endswith(f"\n{self.ends}"):
            yield f"it doesn't end with {self.ends!r}"
        said = "".join(f"{line}\n" for line in lines if line.split(" ")[0] in SAID)
        if not said.startswith(self.says):
            yield f"it says {said!r}, and not {self.says!r}"
        for expression, count in self.counts.items():
            if count != sum(1 for line in lines if re.fullmatch(expression, line)):
                yield f"not {count} lines are {expression!r}"
        for number, expression in self.lines.items():
            if not (number <= len(lines) and re.fullmatch(expression, lines[number - 1])):
                yield f"line {number} isn't {expression!r}"

    def answer(self, journal: bytes) -> str | None:
        """What `check` must write of the journal that was written."""
        if self.stop is None:
            return self.checked
        lines = journal.decode("ascii", errors="replace").splitlines()
        at = next((n for n, line in enumerate(lines, 1) if line.startswith(self.stop)), 0)
        return f"no {at} closed\n"


@dataclass(frozen=True)
class Case:
    """A call of the program."""

    name: str
    words: tuple[str, ...]
    files: Mapping[str, str]  # its own; others lie in FILES
    pipes: tuple[str, ...]  # names of pipes that nobody writes to
    write: tuple[int, int] | None  # the write that fails, and after how many bytes of it
    due: Due

    def lay(self, folder: Path) -> list[str]:
        """Lays the files of its own into the folder, and gives the words that name them."""
        for name, text in self.files.items():
            Path(folder, name).write_bytes(text.encode())
        words = []
        for word in self.words:
            shared = word not in self.files and word not in self.pipes and Path(FILES, word)
            words.append(str(shared) if shared and shared.is_file() else word)
        return words


def shared(name: str) -> str:
    """The text of a file that cases share."""
    return Path(FILES, name).read_text()


def due_of(entry: Mapping[str, Any], outputs: tuple[str, ...], last: str) -> Due:
    """What a case of a table must give, with these outputs or this last line."""
    ends = ended(entry.get("ends", last))
    status = entry.get("status", status_of(outputs[0] if outputs else ends))
    return Due(
        status=status,
        outputs=outputs,
        begins=entry.get("begins", ""),
        ends=ends,
        says=ended(entry.get("says", "")),
        counts=entry.get("counts", {}),
        lines={int(number): line for number, line in entry.get("lines", {}).items()},
        checked=ended(entry["checked"]) if "checked" in entry else None,
        stop=entry.get("stop"),
    )


KEYS = {
    *("name", "words", "calls", "file", "files", "pipes", "write", "change", "rows", "last_rows"),
    *("output", "or", "status", "begins", "ends", "says", "counts", "lines", "checked", "stop"),
}


def cases_of(entry: Mapping[str, Any]) -> Iterator[Case]:
    """The cases of one entry of a table: one for each of its rows and calls."""
    if unknown := entry.keys() - KEYS:
        raise ValueError(f"{entry.get('name')}: there is no key {', '.join(sorted(unknown))}")
    calls = entry["calls"] if "calls" in entry else [entry["words"]]
    rows: list[tuple[list[Any], tuple[str, ...], str]]
    if "rows" in entry:
        rows = [(row[:-1], (ended(row[-1]),), "") for row in entry["rows"]]
    elif "last_rows" in entry:
        rows = [(row[:-1], (), row[-1]) for row in entry["last_rows"]]
    else:
        texts = [entry[key] for key in ("output", "or") if key in entry]
        whole = texts if "write" in entry else map(ended, texts)
        rows = [(entry.get("change", []), tuple(whole), "")]
    write = (int(entry["write"][0]), int(entry["write"][1])) if "write" in entry else None
    for row, (places, outputs, last) in enumerate(rows, 1):
        changes = list(zip(places[::2], places[1::2], strict=True))
        due = due_of(entry, outputs, last)
        for words in calls:
            files = dict(entry.get("files", {}))
            if changes:
                name = entry.get("file", words[1] if len(words) > 1 else "")
                files[name] = changed(files[name] if name in files else shared(name), changes)
            yield Case(
                name=f"{entry['name']}, row {row}, {' '.join(words)}",
                words=tuple(words),
                files=files,
                pipes=tuple(entry.get("pipes", ())),
                write=write,
                due=due,
            )


def table(path: Path) -> list[Case]:
    """The cases of a table."""
    entries = tomllib.loads(path.read_text())["case"]
    return [case for entry in entries for case in cases_of(entry)]


def tables() -> list[Path]:
    """All tables."""
    return sorted(TABLES.glob("*.toml"))
