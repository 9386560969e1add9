"""What the tests share: journals to read, and pages taken apart again."""
from __future__ import annotations

import contextlib
import io
import sys
import tempfile
from html.parser import HTMLParser
from pathlib import Path
from typing import Any

HERE = Path(__file__).resolve().parent
ROOT = HERE.parents[1]
sys.dont_write_bytecode = True
sys.path.insert(0, str(HERE.parent))

from ice_page import command  # noqa: E402

SAMPLES = sorted(HERE.glob("samples/*")) + sorted(ROOT.glob("examples/*.journal"))
VOID = ("meta",)


def sample(name: str) -> str:
    """The text of a sample."""
    return (HERE / "samples" / name).read_text()


def opened(journal: str, settlement: int) -> str:
    """The journal of a session as it stood before the bids that follow a settlement."""
    place = journal.index("submit ", journal.index(f"settle {settlement}\n"))
    return journal[:place] + "end open\n"


class Element:
    """An element of a page."""

    def __init__(self, name: str, attributes: dict[str, str]) -> None:
        self.name, self.attributes = name, attributes
        self.parts: list[Any] = []  # elements and words

    @property
    def text(self) -> str:
        """All words in it."""
        return "".join(part if isinstance(part, str) else part.text for part in self.parts)

    @property
    def classes(self) -> list[str]:
        """Its classes."""
        return self.attributes.get("class", "").split()

    def all(self, name: str, class_: str | None = None) -> list[Element]:
        """All elements of a name, and of a class where one is given, in their order."""
        found = []
        for part in self.parts:
            if isinstance(part, Element):
                if part.name == name and (class_ is None or class_ in part.classes):
                    found.append(part)
                found += part.all(name, class_)
        return found

    def all_of_them(self) -> list[Element]:
        """All elements in it, in their order."""
        found = []
        for part in self.parts:
            if isinstance(part, Element):
                found += [part, *part.all_of_them()]
        return found

    def seen(self) -> str:
        """The words that a wide screen shows: all but titles of drawings, captions and styles."""
        hidden = ("title", "style", "caption")
        return "".join(
            part if isinstance(part, str) else part.seen()
            for part in self.parts
            if isinstance(part, str) or part.name not in hidden and "narrow" not in part.classes
        )


class Page(HTMLParser):
    """A page taken apart; every element has to be closed in its order."""

    def __init__(self, source: str) -> None:
        super().__init__()
        self.root = Element("", {})
        self.open = [self.root]
        self.feed(source)
        self.close()
        assert self.open == [self.root], [element.name for element in self.open]

    def handle_starttag(self, name: str, attributes: list[tuple[str, str | None]]) -> None:
        assert len(dict(attributes)) == len(attributes), f"an attribute twice: {attributes}"
        element = Element(name, {key: value or "" for key, value in attributes})
        self.open[-1].parts.append(element)
        if name not in VOID:
            self.open.append(element)

    def handle_endtag(self, name: str) -> None:
        assert self.open[-1].name == name, f"{name} closes {self.open[-1].name}"
        self.open.pop()

    def handle_data(self, words: str) -> None:
        self.open[-1].parts.append(words)

    def table(self, caption: str) -> list[list[str]]:
        """The rows of all tables whose caption begins so, as words without titles of drawings."""
        return [
            ["".join(cell.seen().split("\n")) for cell in row.parts]
            for table in self.root.all("table")
            if table.all("caption")[0].text.startswith(caption)
            for row in table.all("tr")
        ]

    def facts(self) -> dict[str, tuple[str, str]]:
        """The numbers at a glance, each with its note."""
        entries = self.root.all("dl", "facts")[0].all("div")
        return {
            entry.parts[0].text: (entry.parts[1].text, entry.parts[2].text) for entry in entries
        }


def run(journal: str | bytes, *options: str) -> tuple[int, str, str]:
    """Makes a page of a journal: the status, the page, and what standard error has."""
    with tempfile.TemporaryDirectory() as folder:
        file, page = Path(folder, "some.journal"), Path(folder, "page.html")
        file.write_bytes(journal if isinstance(journal, bytes) else journal.encode())
        status, errors = call(str(file), "-o", str(page), *options)
        return status, page.read_text(encoding="utf-8") if page.exists() else "", errors


def call(*words: str) -> tuple[int, str]:
    """Runs the command in this process: the status, and what standard error has."""
    errors = io.StringIO()
    with contextlib.redirect_stderr(errors):
        try:
            status = command.main(list(words))
        except SystemExit as end:
            status = int(end.code or 0)
    return status, errors.getvalue()


def page_of(journal: str | bytes, *options: str) -> Page:
    """The page of a journal that has one."""
    status, page, errors = run(journal, *options)
    assert status == 0, errors
    return Page(page)
