"""Digests: the kit compares files with published lists as `page/ice-digest` does."""
from __future__ import annotations

import hashlib
import random
import tempfile
import unittest
from pathlib import Path
from typing import Any, Sequence

from support import ROOT, asked, awaited, encoded, needs_node, sessions, so_far, statements

from ice_page import statement_digests
from ice_page.digest import Bound, compared, read_list
from ice_page.lines import BadJournal

HALL = (ROOT / "examples/hall-session.journal").read_bytes()
SALT = bytes(range(100, 132))
OTHER_SALT = bytes(range(32))


def list_of(journal: bytes, salt: bytes = b"") -> list[str]:
    """The line of a journal and those of its sessions as they waited for rounds."""
    fronts = [awaited(journal, number) for number in range(20)]
    found = []
    for each in (*fronts, journal):
        if each is not None:
            bound = Bound(each, salt)
            found.append(str(bound.digest(*bound.published, bool(salt))))
    return found


def by_page(journal: bytes, lines: list[str], salt: bytes) -> list[str] | None:
    """What `page/ice-digest` says of a journal beside a list; None where it refuses the journal."""
    try:
        return compared(Bound(journal, salt), read_list("\n".join(lines)))[0]
    except BadJournal:
        return None


def question(content: bytes, lines: Sequence[str], salt: bytes | str = b"") -> dict[str, str]:
    """A file beside a list."""
    listed = lines if isinstance(lines, str) else "\n".join(lines)
    typed = salt if isinstance(salt, str) else salt.hex()
    return {"kind": "compare", "content": encoded(content), "list": listed, "salt": typed}


def as_lines(answer: dict[str, Any]) -> list[str] | None:
    """An answer in the words of `page/ice-digest`; None where there is none."""
    if answer["of"] != "journal":
        return None
    words = [(("other", "same")[each["same"]], each) for each in answer["rounds"]]
    found = [f"{word} {each['word']} {each['settlement']}" for word, each in words]
    return found + [f"none front {number}" for number in answer["without"]]


def changed_line(draw: random.Random, line: str) -> str:
    """A line of a list with another settlement, size or digest."""
    word, settlement, size, digest, *salted = line.split()
    way = draw.randrange(5)
    if way == 0:
        settlement = str(draw.randrange(4))
    elif way == 1:
        size = str(max(1, int(size) + draw.choice([-1, 1, 10])))
    elif way == 2:
        digest = hashlib.sha256(digest.encode()).hexdigest()
    elif way == 3:
        word = "whole" if word == "front" else "front"
    if word == "front" and settlement == "-":
        word = "whole"
    return " ".join([word, settlement, size, digest, *salted])


def changed_journal(draw: random.Random, journal: bytes) -> bytes:
    """A journal with a line left out, twice, or at another place, or with another byte."""
    lines = journal.splitlines(keepends=True)
    place, way = draw.randrange(len(lines)), draw.randrange(5)
    if way == 0:
        return b"".join(lines[:place] + lines[place + 1 :])
    if way == 1:
        return b"".join(lines[: place + 1] + lines[place:])
    if way == 2:
        return b"".join(lines[:place]) + b"end open\n"
    at = draw.randrange(len(journal))
    return journal[:at] + draw.choice([b"7", b"\n", b"\r", b""]) + journal[at + 1 :]


@needs_node
class Rounds(unittest.TestCase):
    """Journals beside lists of rounds."""

    def test_sha256(self) -> None:
        texts = [bytes(count % 256 for count in range(size)) for size in (*range(130), 1000, 70000)]
        found = asked({"kind": "digest", "content": encoded(text)} for text in texts)
        self.assertEqual(found, [hashlib.sha256(text).hexdigest() for text in texts])

    def test_by_hand(self) -> None:
        fronts, whole = list_of(HALL)[:-1], list_of(HALL)[-1]
        self.assertEqual((len(fronts), whole.split()[:2]), (1, ["whole", "1"]))
        found = asked([question(HALL, [*fronts, whole]), question(HALL, [whole])])
        self.assertEqual([as_lines(each) for each in found], [["same front 0", "same whole 1"], ["same whole 1", "none front 0"]])
        self.assertEqual(found[0]["digest"], hashlib.sha256(HALL).hexdigest())
        later = HALL.replace(b"ice 2", b"ice 3", 1)
        found = asked([question(later, [list_of(later)[-1]])])
        self.assertEqual(as_lines(found[0]), ["same whole 1", "none front 0"])
        forged = f"front 0 10 {hashlib.sha256(HALL[:10]).hexdigest()}"
        self.assertEqual(as_lines(asked([question(HALL, [forged])])[0]), ["other front 0"])

    def test_drawn_lists(self) -> None:
        cases, due = [], []
        every = [journal for journal in sessions() if len(journal) < 30000]
        for seed in range(600):
            draw = random.Random(seed)
            journal = draw.choice(every)
            salt = draw.choice([b"", SALT])
            try:
                lines = list_of(journal) + (list_of(journal, salt) if salt else [])
            except BadJournal:
                continue
            lines = draw.sample(lines, draw.randrange(1, len(lines) + 1))
            lines = [draw.choice([line, line, changed_line(draw, line)]) for line in lines]
            journal = draw.choice([journal, journal, changed_journal(draw, journal)])
            salt = draw.choice([salt, salt, salt and OTHER_SALT])
            cases.append(question(journal, lines, salt))
            due.append(by_page(journal, lines, salt))
        found = [as_lines(each) for each in asked(cases)]
        for case, one, other in zip(cases, found, due):
            self.assertEqual(one, other, case)
        words = {line.split()[0] for lines in due for line in lines or ["refused"]}
        self.assertEqual(words, {"same", "other", "none", "refused"})

    def test_a_salt_that_is_missing(self) -> None:
        (found,) = asked([question(HALL, [*list_of(HALL, SALT), *list_of(HALL)])])
        wanting = [(each["needsSalt"], each["same"]) for each in found["rounds"]]
        self.assertEqual(wanting, [(True, False)] * 2 + [(False, True)] * 2)


@needs_node
class Statements(unittest.TestCase):
    """Statements beside lists of statements."""

    def setUp(self) -> None:
        made = tempfile.TemporaryDirectory()
        self.addCleanup(made.cleanup)
        self.folder = Path(made.name)

    def publish(self, journal: bytes) -> tuple[list[str], dict[str, str]]:
        """The list of a journal's statements, and each bidder's salt."""
        file, salts = self.folder / "journal", self.folder / "salts"
        salts.unlink(missing_ok=True)
        file.write_bytes(journal)
        lines, status = statement_digests.all_statements(str(file), str(salts))
        self.assertEqual(status, 0)
        typed = salts.read_text().splitlines()
        return lines, {line.split()[1]: line for line in typed}

    def test_each_bidder_finds_its_own(self) -> None:
        for journal in (HALL, so_far(HALL, 0)):
            lines, salts = self.publish(journal)
            texts = statements(journal)
            last = "0" if journal.endswith(b"end open\n") else "1"
            for name, text in texts.items():
                typed = salts[name]
                cases = [(text, typed, True), (text, typed.split()[2], True), (text[:-1], typed, False)]
                cases.append((text.replace(b"settle 0", b"settle 7"), typed, False))
                asking = [question(content, lines, salt) for content, salt, _ in cases]
                for (content, _, same), answer in zip(cases, asked(asking)):
                    self.assertEqual((answer["of"], answer["same"]), ("statement", same), content)
                    self.assertEqual(self.by_page(content, typed, lines), same)
                self.assertEqual(asked(asking)[0]["settlement"], last)

    def by_page(self, statement: bytes, salt: str, lines: list[str]) -> bool:
        """What `page/ice-digest --statement` says."""
        names = []
        for name, content in (("one", statement), ("salt", f"{salt}\n".encode()), ("list", "".join(f"{line}\n" for line in lines).encode())):
            (self.folder / name).write_bytes(content)
            names.append(str(self.folder / name))
        return statement_digests.one_statement(*names)[1] == 0

    def test_another_statement_is_not_there(self) -> None:
        lines, salts = self.publish(HALL)
        choir = statements(HALL)["choir"]
        smaller = choir.replace(b"payment choir 5 5/2 115/2", b"payment choir 3 1/2 119/2")
        self.assertNotEqual(smaller, choir)
        audits = asked({"kind": "audit", "content": encoded(text)} for text in (choir, smaller))
        self.assertEqual([each["line"] for each in audits], ["yes 115/2", "yes 119/2"])
        found = asked(question(text, lines, salts["choir"]) for text in (choir, smaller))
        self.assertEqual([each["same"] for each in found], [True, False])
        (later,) = asked([question(choir, [line.replace("statement 1", "statement 0") for line in lines], salts["choir"])])
        self.assertEqual((later["same"], later["ofThis"], later["all"]), (False, 0, 40))

    def test_what_is_at_fault(self) -> None:
        lines, salts = self.publish(HALL)
        choir, salt = statements(HALL)["choir"], salts["choir"]
        for content, listed, typed, fault in (
            (choir, "", salt, "compare.fault.list"),
            (choir, " \n\n", salt, "compare.fault.list"),
            (choir, [*lines, "statement 1"], salt, "compare.fault.list"),
            (choir, [*lines, f"front - 10 {'0' * 64}"], salt, "compare.fault.list"),
            (choir, lines, "", "compare.fault.salt"),
            (choir, lines, salt[:-1], "compare.fault.salt"),
            (choir, lines, salts["opera"], "compare.fault.name"),
            (b"statement choir", lines, salt, "compare.fault.file"),
            (b"statement choir\n", lines, salt, "compare.fault.file"),
            (b"ice 1 session\nsettle 1\n", lines, "", "compare.fault.file"),
            (b"", lines, "", "compare.fault.file"),
        ):
            (found,) = asked([question(content, listed, typed)])
            self.assertEqual(found, {"of": "nothing", "fault": fault}, (content, typed))

    def test_a_list_as_it_is_pasted(self) -> None:
        lines, salts = self.publish(HALL)
        pasted = "\r\n".join(["", *(f"  {line} " for line in [*lines, *list_of(HALL)]), ""])
        found = asked([question(statements(HALL)["choir"], pasted, f" {salts['choir']}\n"), question(HALL, pasted)])
        self.assertEqual((found[0]["same"], found[0]["ofThis"]), (True, 40))
        self.assertEqual(as_lines(found[1]), ["same front 0", "same whole 1"])


if __name__ == "__main__":
    unittest.main()
