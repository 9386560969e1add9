"""Statements made of journals, of open sessions too, and their digests as they are published."""
import contextlib
import hashlib
import io
import os
import re
import stat
import subprocess
import sys
import tempfile
import unittest
from pathlib import Path
from typing import Callable
from unittest import mock

from support import HERE, ROOT, SAMPLES, page_of, run, sample
from test_echo import SPELLED, WILD
from test_echo import wild as wild_letters
from test_statement import BUYER, CLOSED, SELLER, names, statement_of

from ice_page import digest, statement_command, statement_digests
from ice_page.journal import BadJournal
from ice_page.statements import Watched, write_statements

OPEN = sample("open.session")
AWAITED = ("end open", "refused 2 3 bids.0.lo", "unread 2")
# Written by hand: what stands in the journal above its end.
OPEN_BUYER = """statement b
settings 60 0 100 2 5 200
good A
bidder b 0
node buy 0 1 10 20
settle 0
regret 5
kept 0
offered 0
prices 1 14
end open
"""
HALL = ROOT / "examples/hall-session.journal"


def statements(journal: str) -> dict[str, str]:
    """The statements of all bidders."""
    found: dict[str, statement_command.Kept] = {}
    lines = Watched(io.BytesIO(journal.encode()))
    write_statements(lines, lambda name: found.setdefault(name, statement_command.Kept()))
    return {name: kept.data.decode() for name, kept in found.items()}


def reaudit(statement: str) -> str:
    """What the second opinion says of a statement."""
    command = [sys.executable, str(ROOT / "recheck/ice-reaudit"), "/dev/stdin"]
    ran = subprocess.run(command, input=statement.encode(), capture_output=True, check=False)
    return ran.stdout.decode()


def call(main: Callable[[list[str]], int], *words: str) -> tuple[int, str, str]:
    """The status of a command, standard output and standard error."""
    output, errors = io.StringIO(), io.StringIO()
    with contextlib.redirect_stdout(output), contextlib.redirect_stderr(errors):
        try:
            status = main(list(words))
        except SystemExit as end:
            status = int(end.code or 0)
    return status, output.getvalue(), errors.getvalue()


class Statements(unittest.TestCase):
    """What is made of a journal."""

    def test_the_help_of_digests_names_both_words(self) -> None:
        shown = " ".join(digest.words().format_help().split())
        for words in ("--statements JOURNAL SALTS", "--statement FILE SALT LIST"):
            self.assertIn(words, shown)

    def test_written_by_hand(self) -> None:
        found = statements(sample("two-settlements.session"))
        self.assertEqual(found, {"s": SELLER, "b": BUYER})

    def test_every_closed_session(self) -> None:
        for file, journal in CLOSED:
            due = {name: statement_of(journal, name) for name in names(journal)}
            self.assertEqual(statements(journal), due, file)

    def test_as_the_program_writes_it(self) -> None:
        text = (ROOT / "docs/formats.md").read_text()
        shown = re.search(r"hall-session\.journal opera\n(statement .*?end statement\n)", text, re.S)
        assert shown is not None
        self.assertEqual(statements(HALL.read_text())["opera"], shown[1])

    def test_an_open_session(self) -> None:
        front = OPEN.removesuffix("end open\n")
        for end in AWAITED:
            self.assertEqual(statements(f"{front}{end}\n")["b"], OPEN_BUYER, end)

    def test_a_later_statement_begins_with_it(self) -> None:
        # What is said of an open session stands at the front of what is said later.
        for file in SAMPLES:
            journal = file.read_text()
            if "\nsubmit " not in journal or not journal.endswith("end closed\n"):
                continue
            place = journal.index("\nsubmit ") + 1
            later = statements(journal)
            for name, text in statements(f"{journal[:place]}end open\n").items():
                self.assertTrue(later[name].startswith(text.removesuffix("end open\n")), file.name)

    def test_what_has_none(self) -> None:
        names = ("two-settlements.regret", "ring.spent.session", "ring.spent.regret")
        assign = (ROOT / "examples/sample.journal").read_text()
        for journal in (*map(sample, names), assign):
            with self.assertRaises(BadJournal):
                statements(journal)
        twice = OPEN.replace("bidder b 0", "bidder s 0")
        with self.assertRaises(BadJournal):
            statements(twice)

    def test_nothing_of_another_bidder(self) -> None:
        other = OPEN.replace("bidder s 1", "bidder t 7").replace("sell 0 1 -15 -15", "sell 0 3 -9 -9")
        self.assertNotEqual(OPEN, other)
        self.assertEqual(statements(other)["b"], OPEN_BUYER)

    def test_the_command(self) -> None:
        with tempfile.TemporaryDirectory() as folder:
            file = Path(folder, "journal")
            file.write_text(OPEN)
            command = [sys.executable, str(HERE.parent / "ice-statement"), str(file)]
            ran = subprocess.run([*command, "b"], stdout=subprocess.PIPE, check=True, text=True)
            self.assertEqual(ran.stdout, OPEN_BUYER)
            with open("/dev/full", "wb") as full:
                ended = subprocess.run([*command, "b"], stdout=full, stderr=subprocess.DEVNULL, check=False)
                self.assertEqual(ended.returncode, 7)
            main = statement_command.main
            status, _, errors = call(main, str(file), "\x1b]0;x")
            self.assertEqual((status, "\x1b" in errors), (2, False))
            self.assertEqual(call(main, str(file))[0], 1)
            self.assertEqual(call(main, f"{file}.absent", "b")[0], 6)
        self.assertTrue(os.access(HERE.parent / "ice-statement", os.X_OK))


class OpenPages(unittest.TestCase):
    """A page of the statement of an open session."""

    def test_the_same_as_of_the_journal(self) -> None:
        status, of_journal, _ = run(OPEN, "--bidder", "b")
        page = run(OPEN_BUYER)[1]
        for own, theirs in (
            ("audit’s answer", "checker’s answer"),
            (
                "retells the statement; <code>ice audit</code> tests it",
                "retells the journal; whoever has the journal can have it checked",
            ),
            ("<span>a statement</span>", "<span>kind session</span>"),
        ):
            self.assertEqual(page.count(own), 1, own)
            page = page.replace(own, theirs)
        self.assertEqual((status, page == of_journal), (0, True))

    def test_the_audit(self) -> None:
        # An audit fails at the last line alone, `end open`, where all before it is right.
        for told, shown in (
            ("no 11 order", "right so far"),
            ("no 10 prices", "no"),
            ("no 11 short", "no"),
            ("yes 0/1", "no"),
        ):
            facts = page_of(OPEN_BUYER, "--checked", told).facts()
            self.assertEqual(facts["audit’s answer"][0], shown, told)

    def test_where_it_may_end(self) -> None:
        lines = OPEN_BUYER.splitlines(keepends=True)
        for place in range(1, 10):
            cut = "".join([*lines[:place], "end open\n"])
            self.assertEqual(run(cut)[0], 2, place)


class Digests(unittest.TestCase):
    """Lists of digests, each test in a folder of its own."""

    def setUp(self) -> None:
        made = tempfile.TemporaryDirectory()
        self.addCleanup(made.cleanup)
        self.folder = Path(made.name)

    def file(self, name: str, content: str) -> str:
        """The name of a file with this content."""
        (self.folder / name).write_text(content)
        return str(self.folder / name)

    def publish(self, journal: str) -> str:
        """The list of a journal, with the salts in a file `salts`."""
        words = ("--statements", self.file("journal", journal), str(self.folder / "salts"))
        status, lines, errors = call(statement_digests.main, *words)
        self.assertEqual((status, errors), (0, ""))
        return lines

    def salt(self, name: str) -> str:
        """The line of a bidder in the file of salts."""
        lines = (self.folder / "salts").read_text().splitlines(keepends=True)
        return next(line for line in lines if line.startswith(f"salt {name} "))

    def look(self, statement: str, salt: str, published: str) -> tuple[int, str]:
        """Whether a statement is in a list."""
        files = (("statement", statement), ("salt", salt), ("list", published))
        words = [self.file(name, text) for name, text in files]
        status, line, _ = call(statement_digests.main, "--statement", *words)
        return status, line

    def test_a_list(self) -> None:
        published = self.publish(sample("two-settlements.session"))
        lines = published.splitlines()
        self.assertEqual((len(lines), lines), (40, sorted(lines)))
        self.assertNotIn("statement s", published)
        for name, text in (("s", SELLER), ("b", BUYER)):
            salt = bytes.fromhex(self.salt(name).split()[2])
            digest = hashlib.sha256(salt + text.encode()).hexdigest()
            self.assertIn(f"statement 1 {digest}", lines)
        salts = (self.folder / "salts").read_text().splitlines()
        self.assertEqual(len({line.split()[2] for line in salts}), 40)
        nobodies = [bytes.fromhex(line.split()[2]) for line in salts if line.startswith("salt * ")]
        self.assertEqual(len(nobodies), 38)
        for salt in nobodies:
            self.assertIn(f"statement 1 {hashlib.sha256(salt).hexdigest()}", lines)
        self.assertEqual(stat.S_IMODE((self.folder / "salts").stat().st_mode), 0o600)
        # The same salts give the same list, and other ones another.
        self.assertEqual(self.publish(sample("two-settlements.session")), published)
        (self.folder / "salts").unlink()
        self.assertNotEqual(self.publish(sample("two-settlements.session")), published)

    def test_each_bidder_finds_its_own(self) -> None:
        published = self.publish(HALL.read_text())
        found = statements(HALL.read_text())
        self.assertEqual(len(found), 4)
        for name, text in found.items():
            self.assertEqual(self.look(text, self.salt(name), published), (0, "same statement 1\n"))

    def test_another_statement_is_not_there(self) -> None:
        # Each of these passes its audit: what it changes rests on the others' bids.
        published = self.publish(HALL.read_text())
        text, salt = statements(HALL.read_text())["choir"], self.salt("choir")
        for line, other in (
            ("payment choir 5 5/2 115/2", "payment choir 4 3/2 117/2"),
            ("regret 10", "regret 11"),
            ("threshold 5/2", "threshold 3/1"),
            ("payment choir 5 5/2 115/2", "payment choir 0 0/1 0/1"),
        ):
            changed = text.replace(line, other)
            if "threshold" in line:
                changed = changed.replace("payment choir 5 5/2 115/2", "payment choir 5 2/1 58/1")
            if "payment choir 0" in other:
                changed = changed.replace("regret 0\nkept 11110", "regret 0\nkept 00000")
            self.assertNotEqual(changed, text)
            self.assertEqual(reaudit(changed)[:4], "yes ", line)
            self.assertEqual(self.look(changed, salt, published), (3, "other statement 1\n"), line)
        self.assertEqual(self.look(text, salt, published)[0], 0)
        wrong = f"salt choir {self.salt('opera').split()[2]}\n"
        self.assertEqual(self.look(text, wrong, published)[0], 3)

    def test_an_open_session(self) -> None:
        published = self.publish(OPEN)
        found = self.look(OPEN_BUYER, self.salt("b"), published)
        self.assertEqual(found, (0, "same statement 0\n"))
        later = published.replace("statement 0 ", "statement 1 ")
        self.assertEqual(self.look(OPEN_BUYER, self.salt("b"), later)[0], 3)

    def test_files_at_fault(self) -> None:
        published, salt = self.publish(OPEN), self.salt("b")
        for text in ("", "x\n", salt[:-1], f"{salt}{salt}", salt.replace("b", "s", 1), salt.upper()):
            self.assertEqual(self.look(OPEN_BUYER, text, published), (2, ""), text)
        for text in ("", "x\n", published[:-1], f"{published}x\n", "statement 0 ab\n"):
            self.assertEqual(self.look(OPEN_BUYER, salt, text), (2, ""), text)
        for text in ("", "statement b\n", OPEN, OPEN_BUYER[10:]):
            self.assertEqual(self.look(text, salt, published), (2, ""), text)
        salts = (self.folder / "salts").read_text()
        for text in ("", salt, salts.replace("salt b ", "salt c "), f"{salts}salt * {'0' * 64}\n"):
            words = ("--statements", self.file("journal", OPEN), self.file("other", text))
            self.assertEqual(call(statement_digests.main, *words)[:2], (2, ""), text[:80])
        for text in ("", "ice 1 prices\n", sample("ring.spent.session"), OPEN[:-1]):
            words = ("--statements", self.file("bad", text), str(self.folder / "salts"))
            self.assertEqual(call(statement_digests.main, *words)[:2], (2, ""), text[:80])

    def test_files_that_cannot_be_read_or_made(self) -> None:
        journal, absent = self.file("journal", OPEN), str(self.folder / "absent")
        salts = str(self.folder / "none" / "salts")
        main = statement_digests.main
        self.assertEqual(call(main, "--statements", absent, absent)[0], 6)
        self.assertEqual(call(main, "--statements", journal, salts)[:2], (7, ""))
        for words in ((absent, journal, journal), (journal, journal, absent)):
            self.assertEqual(call(main, "--statement", *words)[:2] in ((6, ""), (2, "")), True)

    def test_names_that_a_terminal_would_obey(self) -> None:
        wild, absent = self.file(WILD, "no list\n"), str(self.folder / f"absent-{WILD}")
        journal, main = self.file("journal", OPEN), statement_digests.main
        for words, wanted in (
            (("--statements", wild, str(self.folder / "new")), 2),
            (("--statements", absent, absent), 6),
            (("--statements", journal, str(self.folder / "none" / WILD)), 7),
            (("--statement", wild, wild, wild), 2),
            (("--statement", absent, absent, absent), 6),
            (("--statements", journal, journal, WILD), 1),
        ):
            status, output, said = call(main, *words)
            self.assertEqual((status, output, wild_letters(said)), (wanted, "", []), words[0])
            self.assertIn(SPELLED, said)

    def test_want_of_memory_and_interrupts(self) -> None:
        words = ("--statements", self.file("journal", OPEN), str(self.folder / "salts"))
        for fault, ending in (
            (MemoryError, (8, "", "ice-digest: want of memory\n")),
            (KeyboardInterrupt, (130, "", "")),
        ):
            with mock.patch.object(statement_digests, "read_salts", side_effect=fault):
                self.assertEqual(call(statement_digests.main, *words), ending)

    def test_no_more_is_read_than_shows_that_a_file_is_too_long(self) -> None:
        files = {name: self.file(name, "x\n") for name in ("statement", "salt", "list")}
        files["salt"] = self.file("salt", f"salt b {'0' * 64}\n")
        files["list"] = self.file("list", f"statement 0 {'0' * 64}\n")
        # No byte of so long a file is there, and no memory would hold them.
        for name, limit in (("list", "65,536"), ("salt", "65,536"), ("statement", "134,217,728")):
            with open(self.folder / "long", "wb") as long:
                long.truncate(1 << 40)
            words = {**files, name: long.name}.values()
            status, _, said = call(statement_digests.main, "--statement", *words)
            self.assertEqual((status, f"longer than {limit} bytes" in said), (2, True), said)

    def test_the_command(self) -> None:
        command = [sys.executable, str(HERE.parent / "ice-digest"), "--statements"]
        words = [self.file("journal", OPEN), str(self.folder / "salts")]
        ran = subprocess.run([*command, *words], stdout=subprocess.PIPE, check=True, text=True)
        self.assertEqual(ran.stdout, self.publish(OPEN))
        with open("/dev/full", "wb") as full:
            ended = subprocess.run([*command, *words], stdout=full, stderr=subprocess.DEVNULL, check=False)
            self.assertEqual(ended.returncode, 7)
        wrongs: tuple[list[str], ...] = ([], words[:1], [*words, "x"])
        for wrong in wrongs:
            self.assertEqual(call(statement_digests.main, "--statements", *wrong)[0], 1)


if __name__ == "__main__":
    unittest.main()
